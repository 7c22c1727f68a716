@turns 60 the steps of a Collatz sequence
@program run
{n} = args;
x = 0;
for i in [1..n]
  k = i;
  steps = 0;
  while (k != 1)
    if (k % 2 == 0)
      k = k / 2;
    else
      k = 3 * k + 1;
    endif
    steps = steps + 1;
  endwhile
  x = x + steps;
endfor
return x;
.
