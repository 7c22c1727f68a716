@turns 900 a word or a number, by nested conditions
@program run
{n} = args;
x = 0;
for i in [1..n]
  if (i % 3 == 0)
    if (i % 5 == 0)
      w = "fizzbuzz";
    else
      w = "fizz";
    endif
  else
    w = i % 5 == 0 ? "buzz" | "";
  endif
  x = x + (w ? length(w) | i);
endfor
return x;
.
