@turns 400 a `for` over a list of twenty numbers
@program run
{n} = args;
l = {};
for i in [1..20]
  l = {@l, i};
endfor
x = 0;
for i in [1..n]
  for v in (l)
    x = x + v;
  endfor
endfor
return x;
.
