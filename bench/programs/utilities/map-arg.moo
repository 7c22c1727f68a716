@turns 60 a verb called by its name for each of ten numbers
@create #-1 named map_utils
@program $map_utils:map_arg
{object, verb, data} = args;
results = {};
for elt in (data)
  results = listappend(results, object:(verb)(elt));
endfor
return results;
.
@program $map_utils:double
{x} = args;
return 2 * x;
.
@program run
{n} = args;
l = {1, 2, 3, 4, 5, 6, 7, 8, 9, 10};
x = 0;
for i in [1..n]
  r = $map_utils:map_arg($map_utils, "double", l);
  x = x + r[10];
endfor
return x;
.
