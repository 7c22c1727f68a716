@turns 100 the first square above a number, by `break`, `continue` and a named loop
@program run
{n} = args;
x = 0;
for i in [1..n]
  k = 0;
  while outer (1)
    k = k + 1;
    if (k % 2)
      continue;
    endif
    for j in [1..3]
      if (k * k + j > 200 + i)
        break outer;
      endif
    endfor
  endwhile
  x = x + k;
endfor
return x;
.
