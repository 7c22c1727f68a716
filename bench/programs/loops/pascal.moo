@turns 25 the first ten rows of Pascal's triangle
@program run
{n} = args;
x = 0;
for i in [1..n]
  row = {1};
  for k in [1..9]
    next = {1};
    for j in [2..length(row)]
      next = {@next, row[j - 1] + row[j]};
    endfor
    row = {@next, 1};
  endfor
  x = x + row[5];
endfor
return x;
.
