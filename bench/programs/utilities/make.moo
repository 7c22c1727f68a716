@turns 100 a list of 37 zeros, by doubling
@create #-1 named make_utils
@program $make_utils:make
{n, ?elt = 0} = args;
if (n < 0)
  return E_INVARG;
endif
ret = {};
build = {elt};
while (1)
  if (n % 2)
    ret = {@ret, @build};
  endif
  if (n = n / 2)
    build = {@build, @build};
  else
    return ret;
  endif
endwhile
.
@program run
{n} = args;
x = 0;
for i in [1..n]
  x = x + length($make_utils:make(37));
endfor
return x;
.
