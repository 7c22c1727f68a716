@turns 10 a quick sort of twenty numbers by lists of the smaller and the others
@create #-1 named quick
@program $quick:sort
{l} = args;
if (length(l) < 2)
  return l;
endif
pivot = l[1];
low = high = {};
for v in (l[2..$])
  if (v < pivot)
    low = {@low, v};
  else
    high = {@high, v};
  endif
endfor
return {@this:sort(low), pivot, @this:sort(high)};
.
@program run
{n} = args;
l = {57, 13, 99, 4, 76, 31, 68, 22, 85, 40, 11, 92, 64, 37, 5, 71, 28, 83, 49, 16};
x = 0;
for k in [1..n]
  s = $quick:sort(l);
  x = x + s[1] + s[20];
endfor
return x;
.
