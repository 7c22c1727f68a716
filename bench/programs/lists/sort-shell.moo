@turns 12 a Shell sort of twenty numbers, in place
@program run
{n} = args;
l = {57, 13, 99, 4, 76, 31, 68, 22, 85, 40, 11, 92, 64, 37, 5, 71, 28, 83, 49, 16};
len = length(l);
x = 0;
for k in [1..n]
  s = l;
  gap = len / 2;
  while (gap > 0)
    for i in [gap + 1..len]
      v = s[i];
      j = i;
      while (j > gap && s[j - gap] > v)
        s[j] = s[j - gap];
        j = j - gap;
      endwhile
      s[j] = v;
    endfor
    gap = gap / 2;
  endwhile
  x = x + s[1] + s[20];
endfor
return x;
.
