@turns 1200 a catch in which nothing is raised
@program run
{n} = args;
y = 0;
for i in [1..n]
  y = y + `100 / i ! E_DIV => 0';
endfor
return y;
.
