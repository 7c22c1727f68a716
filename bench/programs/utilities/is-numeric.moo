@turns 200 whether a word is a number, digit by digit
@create #-1 named numeric_utils
@program $numeric_utils:is_numeric
{s} = args;
if (!s)
  return 0;
endif
for i in [s[1] == "-" ? 2 | 1..length(s)]
  if (!index("0123456789", s[i]))
    return 0;
  endif
endfor
return s != "-";
.
@program run
{n} = args;
words = {"-12345", "lamp", "7", "12b"};
x = 0;
for i in [1..n]
  x = x + $numeric_utils:is_numeric(words[i % 4 + 1]);
endfor
return x;
.
