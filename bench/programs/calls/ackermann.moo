@turns 20 ackermann(2, 2), 27 calls
@create #-1 named ackermann
@program $ackermann:a
{m, n} = args;
if (m == 0)
  return n + 1;
elseif (n == 0)
  return this:a(m - 1, 1);
else
  return this:a(m - 1, this:a(m, n - 1));
endif
.
@program run
{n} = args;
x = 0;
for i in [1..n]
  x = x + $ackermann:a(2, 2);
endfor
return x;
.
