@turns 60 a list of lists of lists, flattened by a verb that calls itself
@create #-1 named flattening
@program $flattening:flatten
{l} = args;
flat = {};
for e in (l)
  if (typeof(e) == LIST)
    flat = {@flat, @this:flatten(e)};
  else
    flat = {@flat, e};
  endif
endfor
return flat;
.
@program run
{n} = args;
l = {1, {2, {3, 4}, 5}, {6, 7}, {{8}, 9}, 10};
x = 0;
for i in [1..n]
  x = x + length($flattening:flatten(l));
endfor
return x;
.
