@turns 60 lists of one, two and five names as English
@create #-1 named english_utils
@program $english_utils:english_list
{things, ?nothingstr = "nothing", ?andstr = " and ", ?commastr = ", ", ?finalcommastr = ","} = args;
nthings = length(things);
if (nthings == 0)
  return nothingstr;
elseif (nthings == 1)
  return tostr(things[1]);
elseif (nthings == 2)
  return tostr(things[1], andstr, things[2]);
else
  ret = "";
  for k in [1..nthings - 1]
    if (k == nthings - 1)
      commastr = finalcommastr;
    endif
    ret = tostr(ret, things[k], commastr);
  endfor
  return tostr(ret, andstr, things[nthings]);
endif
.
@program run
{n} = args;
one = {"a lamp"};
two = {"a lamp", "a bag"};
five = {"a lamp", "a bag", "a chest", "a key", "a book"};
x = 0;
for i in [1..n]
  x = x + length($english_utils:english_list(one));
  x = x + length($english_utils:english_list(two));
  x = x + length($english_utils:english_list(five));
endfor
return x;
.
