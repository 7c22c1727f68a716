@turns 80 a list of twenty, reversed by a loop from its end
@create #-1 named reversing
@program $reversing:reverse
{l} = args;
r = {};
i = length(l);
while (i)
  r = {@r, l[i]};
  i = i - 1;
endwhile
return r;
.
@program run
{n} = args;
l = {};
for i in [1..20]
  l = {@l, i};
endfor
x = 0;
for i in [1..n]
  l = $reversing:reverse(l);
  x = x + l[1];
endfor
return x;
.
