@turns 8 a merge sort of twenty numbers
@create #-1 named merging
@program $merging:sort
{l} = args;
if ((len = length(l)) < 2)
  return l;
endif
half = len / 2;
return this:merge(this:sort(l[1..half]), this:sort(l[half + 1..len]));
.
@program $merging:merge
{a, b} = args;
la = length(a);
lb = length(b);
r = {};
i = j = 1;
while (i <= la && j <= lb)
  if (a[i] <= b[j])
    r = {@r, a[i]};
    i = i + 1;
  else
    r = {@r, b[j]};
    j = j + 1;
  endif
endwhile
return {@r, @a[i..la], @b[j..lb]};
.
@program run
{n} = args;
l = {57, 13, 99, 4, 76, 31, 68, 22, 85, 40, 11, 92, 64, 37, 5, 71, 28, 83, 49, 16};
x = 0;
for k in [1..n]
  s = $merging:sort(l);
  x = x + s[1] + s[20];
endfor
return x;
.
