@turns 1000 a catch in which each second turn raises E_DIV
@program run
{n} = args;
y = 0;
for i in [1..n]
  y = y + `10 / (i % 2) ! E_DIV => 1';
endfor
return y;
.
