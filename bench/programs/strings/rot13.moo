@turns 25 twenty letters, each changed in place by its place in the alphabet
@create #-1 named cipher
@property $cipher.from "abcdefghijklmnopqrstuvwxyz"
@property $cipher.to "nopqrstuvwxyzabcdefghijklm"
@program $cipher:rot13
{s} = args;
for i in [1..length(s)]
  if (k = index(this.from, s[i]))
    s[i] = this.to[k];
  endif
endfor
return s;
.
@program run
{n} = args;
s = "the quick brown fox!";
for i in [1..n]
  s = $cipher:rot13(s);
endfor
return s;
.
