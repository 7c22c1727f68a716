@turns 20 a list of fifty, built at its front
@program run
{n} = args;
x = 0;
for j in [1..n]
  l = {};
  for i in [1..50]
    l = {i, @l};
  endfor
  x = x + l[1] + l[$];
endfor
return x;
.
