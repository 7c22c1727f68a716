@turns 40 two verbs that call each other, 20 calls
@create #-1 named parity
@program $parity:is_even
{n} = args;
if (n == 0)
  return 1;
endif
return this:is_odd(n - 1);
.
@program $parity:is_odd
{n} = args;
if (n == 0)
  return 0;
endif
return this:is_even(n - 1);
.
@program run
{n} = args;
x = 0;
for i in [1..n]
  x = x + $parity:is_even(20);
endfor
return x;
.
