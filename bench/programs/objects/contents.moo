@turns 60 the weight of a chest with all that is in it, by calls
@create #-1 named load_kind
@property $load_kind.weight 1
@program $load_kind:load
sum = this.weight;
for o in (this.contents)
  sum = sum + o:load();
endfor
return sum;
.
@create $load_kind named big_chest
@create $load_kind named small_chest
@move $small_chest to $big_chest
@create $load_kind named purse
@move $purse to $small_chest
@create $load_kind named coin_1
@move $coin_1 to $purse
@create $load_kind named coin_2
@set $coin_2.weight to 2
@move $coin_2 to $purse
@create $load_kind named cloak
@set $cloak.weight to 5
@move $cloak to $big_chest
@create $load_kind named boots
@move $boots to $big_chest
@program run
{n} = args;
x = 0;
for i in [1..n]
  x = x + $big_chest:load();
endfor
return x;
.
