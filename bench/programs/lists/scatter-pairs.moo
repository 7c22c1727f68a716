@turns 500 the pairs of a list of five, scattered
@program run
{n} = args;
l = {{1, 2}, {3, 4}, {5, 6}, {7, 8}, {9, 10}};
x = 0;
for i in [1..n]
  for pair in (l)
    {a, b} = pair;
    x = x + a * b;
  endfor
endfor
return x;
.
