@turns 2500 a chain of five tests
@program run
{n} = args;
a = b = c = d = e = 0;
for i in [1..n]
  k = i % 7;
  if (k == 0)
    a = a + 1;
  elseif (k == 1)
    b = b + 1;
  elseif (k < 3)
    c = c + 1;
  elseif (k == 5 && i % 2)
    d = d + 1;
  else
    e = e + 1;
  endif
endfor
return a + 10 * b + 100 * c + 1000 * d + 10000 * e;
.
