@turns 900 a `try` in which each second turn raises E_DIV
@program run
{n} = args;
y = 0;
for i in [1..n]
  try
    x = 10 / (i % 2);
    y = y + x;
  except (E_DIV)
    y = y + 1;
  endtry
endfor
return y;
.
