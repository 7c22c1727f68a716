@turns 700 a `try` in which each second turn raises E_DIV, with a variable for the error
@program run
{n} = args;
y = 0;
for i in [1..n]
  try
    x = 10 / (i % 2);
    y = y + x;
  except e (E_DIV, E_TYPE)
    if (e[1] == E_DIV)
      y = y + 1;
    endif
  endtry
endfor
return y;
.
