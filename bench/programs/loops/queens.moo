@turns 4 the solutions of five queens, each row a call
@create #-1 named queens
@program $queens:place
{row, size, columns} = args;
if (row > size)
  return 1;
endif
count = 0;
for c in [1..size]
  free = 1;
  for r in [1..row - 1]
    d = columns[r] - c;
    if (d == 0 || d == row - r || d == r - row)
      free = 0;
      break;
    endif
  endfor
  if (free)
    count = count + this:place(row + 1, size, {@columns, c});
  endif
endfor
return count;
.
@program run
{n} = args;
x = 0;
for i in [1..n]
  x = x + $queens:place(1, 5, {});
endfor
return x;
.
