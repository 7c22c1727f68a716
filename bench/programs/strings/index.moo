@turns 500 `index` of a word in 43 letters, found and not found, and `rindex` of a blank
@program run
{n} = args;
s = "the quick brown fox jumps over the lazy dog";
x = 0;
for i in [1..n]
  x = x + index(s, "jumps") + index(s, "cat") + rindex(s, " ");
endfor
return x;
.
