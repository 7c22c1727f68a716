@turns 60 a thing looked for by its name among the eight of a place
@create #-1 named store
@create #-1 named find_1
@rename $find_1 to brass lamp
@move $find_1 to $store
@create #-1 named find_2
@rename $find_2 to leather bag
@move $find_2 to $store
@create #-1 named find_3
@rename $find_3 to wooden chest
@move $find_3 to $store
@create #-1 named find_4
@rename $find_4 to iron key
@move $find_4 to $store
@create #-1 named find_5
@rename $find_5 to old book
@move $find_5 to $store
@create #-1 named find_6
@rename $find_6 to oak table
@move $find_6 to $store
@create #-1 named find_7
@rename $find_7 to straw hat
@move $find_7 to $store
@create #-1 named find_8
@rename $find_8 to tin cup
@move $find_8 to $store
@program $store:find
{name} = args;
for o in (this.contents)
  if (o.name == name || index(o.name, name) == 1)
    return o;
  endif
endfor
return #-1;
.
@program run
{n} = args;
x = 0;
for i in [1..n]
  x = x + ($store:find("oak table") == $find_6) + valid($store:find("tin"));
endfor
return x;
.
