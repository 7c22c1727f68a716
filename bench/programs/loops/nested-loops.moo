@turns 80 ten turns in each of ten
@program run
{n} = args;
x = 0;
for i in [1..n]
  for j in [1..10]
    for k in [1..10]
      x = x + j * k;
    endfor
  endfor
endfor
return x;
.
