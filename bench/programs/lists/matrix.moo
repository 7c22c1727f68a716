@turns 14 the product of two matrices of four by four
@create #-1 named matrices
@program $matrices:product
{a, b} = args;
size = length(a);
c = {};
for i in [1..size]
  row = {};
  for j in [1..size]
    sum = 0;
    for k in [1..size]
      sum = sum + a[i][k] * b[k][j];
    endfor
    row = {@row, sum};
  endfor
  c = {@c, row};
endfor
return c;
.
@program run
{n} = args;
a = {{1, 2, 3, 4}, {5, 6, 7, 8}, {9, 10, 11, 12}, {13, 14, 15, 16}};
b = {{2, 0, 1, 0}, {0, 2, 0, 1}, {1, 0, 2, 0}, {0, 1, 0, 2}};
x = 0;
for i in [1..n]
  c = $matrices:product(a, b);
  x = x + c[2][3];
endfor
return x;
.
