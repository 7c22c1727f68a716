@turns 5 fib(10), 177 calls
@create #-1 named fibonacci
@program $fibonacci:fib
{n} = args;
if (n < 2)
  return n;
endif
return this:fib(n - 1) + this:fib(n - 2);
.
@program run
{n} = args;
x = 0;
for i in [1..n]
  x = x + $fibonacci:fib(10);
endfor
return x;
.
