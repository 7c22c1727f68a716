@turns 10 the elements of a list of fifty that a verb wants
@create #-1 named filter
@program $filter:filter
l = args[1];
r = {};
for x in (l)
  if (this:wanted(x))
    r = {@r, x};
  endif
endfor
return r;
.
@program $filter:wanted
x = args[1];
return x % 3 == 0;
.
@program run
{n} = args;
l = {};
for i in [1..50]
  l = {@l, i};
endfor
x = 0;
for i in [1..n]
  x = x + length($filter:filter(l));
endfor
return x;
.
