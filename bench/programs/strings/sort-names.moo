@turns 20 eight names sorted by `<`, exchanged in place
@program run
{n} = args;
l = {"walnut", "oak", "birch", "elm", "maple", "cedar", "ash", "willow"};
x = 0;
for k in [1..n]
  s = l;
  for i in [1..length(s) - 1]
    for j in [1..length(s) - i]
      if (s[j + 1] < s[j])
        t = s[j];
        s[j] = s[j + 1];
        s[j + 1] = t;
      endif
    endfor
  endfor
  x = x + length(s[1]) + length(s[8]);
endfor
return x;
.
