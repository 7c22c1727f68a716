@turns 120 a look for a number in a sorted list of a hundred
@create #-1 named searching
@program $searching:find
{l, key} = args;
low = 1;
high = length(l);
while (low <= high)
  middle = (low + high) / 2;
  if (l[middle] < key)
    low = middle + 1;
  elseif (l[middle] > key)
    high = middle - 1;
  else
    return middle;
  endif
endwhile
return 0;
.
@program run
{n} = args;
l = {};
for i in [1..100]
  l = {@l, 3 * i};
endfor
x = 0;
for i in [1..n]
  x = x + $searching:find(l, i * 7 % 300);
endfor
return x;
.
