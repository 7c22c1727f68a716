@turns 100 a look for a key in a list of eight pairs
@create #-1 named pairs
@program $pairs:assoc
{key, l} = args;
for pair in (l)
  if (pair[1] == key)
    return pair[2];
  endif
endfor
return 0;
.
@program run
{n} = args;
l = {{"north", 1}, {"south", 2}, {"east", 3}, {"west", 4}, {"up", 5}, {"down", 6}, {"in", 7}, {"out", 8}};
x = 0;
for i in [1..n]
  x = x + $pairs:assoc("down", l) + $pairs:assoc("out", l);
endfor
return x;
.
