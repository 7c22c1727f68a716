@turns 400 parts of a list of ten, joined
@program run
{n} = args;
l = {};
for i in [1..10]
  l = {@l, i};
endfor
x = 0;
for i in [1..n]
  k = i % 10 + 1;
  m = {@l[k..$], @l[1..k - 1]};
  x = x + m[1] + m[2..4][2];
endfor
return x;
.
