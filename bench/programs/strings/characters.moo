@turns 30 the vowels of 43 letters, each looked at
@program run
{n} = args;
s = "the quick brown fox jumps over the lazy dog";
x = 0;
for i in [1..n]
  for j in [1..length(s)]
    c = s[j];
    if (c == "a" || c == "e" || c == "o")
      x = x + 1;
    endif
  endfor
endfor
return x;
.
