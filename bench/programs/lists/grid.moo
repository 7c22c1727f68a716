@turns 900 a cell of a grid of lists, read and set in place
@program run
{n} = args;
m = {{0, 0, 0, 0}, {0, 0, 0, 0}, {0, 0, 0, 0}, {0, 0, 0, 0}};
for i in [1..n]
  r = i % 4 + 1;
  c = i % 3 + 1;
  m[r][c] = m[r][c] + i;
endfor
return m[2][2];
.
