@turns 120 whether an object is below another, four parents up, and below one that isn't there
@create #-1 named kind_1
@create $kind_1 named kind_2
@create $kind_2 named kind_3
@create $kind_3 named kind_4
@create $kind_4 named kind_5
@create #-1 named kind_utils
@program $kind_utils:isa
{what, kind} = args;
while (valid(what))
  if (what == kind)
    return 1;
  endif
  what = parent(what);
endwhile
return 0;
.
@program run
{n} = args;
x = 0;
for i in [1..n]
  x = x + $kind_utils:isa($kind_5, $kind_1) + $kind_utils:isa($kind_5, $kind_utils);
endfor
return x;
.
