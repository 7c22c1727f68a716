@turns 1500 two lists of lists compared, equal and not
@program run
{n} = args;
a = {{1, "north"}, {2, "south"}, {3, "east"}};
b = {{1, "north"}, {2, "south"}, {3, "east"}};
c = {{1, "north"}, {2, "south"}, {3, "west"}};
x = 0;
for i in [1..n]
  if (a == b)
    x = x + 1;
  endif
  if (a != c)
    x = x + 2;
  endif
endfor
return x;
.
