@turns 200 the greatest common divisor of two numbers, by a loop in a verb
@create #-1 named divisors
@program $divisors:gcd
{a, b} = args;
while (b)
  t = a % b;
  a = b;
  b = t;
endwhile
return a;
.
@program run
{n} = args;
x = 0;
for i in [1..n]
  x = x + $divisors:gcd(1071 + i, 462);
endfor
return x;
.
