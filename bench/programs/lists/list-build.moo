@turns 60 a list of fifty, built at its end, and its sum
@program run
{n} = args;
x = 0;
for j in [1..n]
  l = {};
  for i in [1..50]
    l = {@l, i};
  endfor
  for v in (l)
    x = x + v;
  endfor
endfor
return x;
.
