@turns 1200 `in` a list of twelve words, found late and not found
@program run
{n} = args;
l = {"north", "south", "east", "west", "up", "down", "in", "out", "northeast", "northwest", "southeast", "southwest"};
x = 0;
for i in [1..n]
  if ("southeast" in l)
    x = x + 1;
  endif
  if (!("nowhere" in l))
    x = x + 2;
  endif
endfor
return x;
.
