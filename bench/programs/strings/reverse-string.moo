@turns 35 twenty letters, reversed one by one
@create #-1 named mirror
@program $mirror:reverse
{s} = args;
r = "";
for i in [1..length(s)]
  r = s[i] + r;
endfor
return r;
.
@program run
{n} = args;
s = "the quick brown fox!";
for i in [1..n]
  s = $mirror:reverse(s);
endfor
return s;
.
