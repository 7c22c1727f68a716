@turns 12 an insertion sort of twenty numbers, in place
@program run
{n} = args;
l = {57, 13, 99, 4, 76, 31, 68, 22, 85, 40, 11, 92, 64, 37, 5, 71, 28, 83, 49, 16};
x = 0;
for k in [1..n]
  s = l;
  for i in [2..length(s)]
    v = s[i];
    j = i - 1;
    while (j > 0 && s[j] > v)
      s[j + 1] = s[j];
      j = j - 1;
    endwhile
    s[j + 1] = v;
  endfor
  x = x + s[1] + s[20];
endfor
return x;
.
