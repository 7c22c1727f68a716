@turns 12000 a number more in a `for` over numbers
@program run
{n} = args;
x = 0;
for i in [1..n]
  x = x + i;
endfor
return x;
.
