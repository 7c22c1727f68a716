@turns 60 nine words joined with a separator
@create #-1 named join_utils
@program $join_utils:from_list
{thelist, ?separator = ""} = args;
if (separator == "")
  return tostr(@thelist);
elseif (thelist)
  result = tostr(thelist[1]);
  for elt in (thelist[2..$])
    result = tostr(result, separator, elt);
  endfor
  return result;
else
  return "";
endif
.
@program run
{n} = args;
l = {"the", "quick", "brown", "fox", "jumps", "over", "the", "lazy", "dog"};
x = 0;
for i in [1..n]
  x = x + length($join_utils:from_list(l, ", "));
endfor
return x;
.
