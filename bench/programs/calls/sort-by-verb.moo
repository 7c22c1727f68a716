@turns 10 an insertion sort of twelve numbers by a verb that compares
@create #-1 named ordering
@program $ordering:less
{a, b} = args;
return a % 10 < b % 10;
.
@program $ordering:sort
{l} = args;
for i in [2..length(l)]
  x = l[i];
  j = i - 1;
  while (j > 0 && this:less(x, l[j]))
    l[j + 1] = l[j];
    j = j - 1;
  endwhile
  l[j + 1] = x;
endfor
return l;
.
@program run
{n} = args;
l = {57, 13, 99, 4, 76, 31, 68, 22, 85, 40, 11, 92};
x = 0;
for i in [1..n]
  s = $ordering:sort(l);
  x = x + s[1] + s[12];
endfor
return x;
.
