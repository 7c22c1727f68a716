@turns 5000 a step of a random number
@program run
{n} = args;
x = 12345;
for i in [1..n]
  x = (x * 171 + 11213) % 53125;
endfor
return x;
.
