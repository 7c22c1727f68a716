@turns 35 the sum of a list of twenty, each call with the rest of the list
@create #-1 named summing
@program $summing:sum
{l} = args;
return l ? l[1] + this:sum(l[2..$]) | 0;
.
@program run
{n} = args;
l = {};
for i in [1..20]
  l = {@l, i};
endfor
x = 0;
for i in [1..n]
  x = x + $summing:sum(l);
endfor
return x;
.
