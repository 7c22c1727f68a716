@turns 10000 a turn of `while` alone
@program run
{n} = args;
i = 0;
while (i < n)
  i = i + 1;
endwhile
return i;
.
