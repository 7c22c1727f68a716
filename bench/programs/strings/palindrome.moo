@turns 60 whether 21 letters are a palindrome, from both ends
@create #-1 named both_ends
@program $both_ends:is_palindrome
{s} = args;
i = 1;
j = length(s);
while (i < j)
  if (s[i] != s[j])
    return 0;
  endif
  i = i + 1;
  j = j - 1;
endwhile
return 1;
.
@program run
{n} = args;
x = 0;
for i in [1..n]
  x = x + $both_ends:is_palindrome("amanaplanacanalpanama");
endfor
return x;
.
