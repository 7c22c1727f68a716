@turns 200 blanks taken off both ends of a string
@create #-1 named trim_utils
@program $trim_utils:trim
{string, ?space = " "} = args;
len = length(string);
i = 1;
while (i <= len && string[i] == space)
  i = i + 1;
endwhile
j = len;
while (j > i && string[j] == space)
  j = j - 1;
endwhile
return string[i..j];
.
@program run
{n} = args;
x = 0;
for i in [1..n]
  x = x + length($trim_utils:trim("   the old lamp  "));
endfor
return x;
.
