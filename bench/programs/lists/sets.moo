@turns 60 the union and the intersection of two sets of ten, and their difference
@create #-1 named set_utils
@program $set_utils:union
{set, other} = args;
for e in (other)
  set = setadd(set, e);
endfor
return set;
.
@program $set_utils:intersection
{set, other} = args;
both = {};
for e in (set)
  if (e in other)
    both = {@both, e};
  endif
endfor
return both;
.
@program $set_utils:difference
{set, other} = args;
for e in (other)
  set = setremove(set, e);
endfor
return set;
.
@program run
{n} = args;
a = {1, 2, 3, 4, 5, 6, 7, 8, 9, 10};
b = {2, 4, 6, 8, 10, 12, 14, 16, 18, 20};
x = 0;
for i in [1..n]
  x = x + length($set_utils:union(a, b)) + length($set_utils:intersection(a, b)) + length($set_utils:difference(a, b));
endfor
return x;
.
