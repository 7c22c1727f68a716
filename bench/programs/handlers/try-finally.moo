@turns 700 a `finally`, and each second turn a raise through it
@program run
{n} = args;
y = z = 0;
for i in [1..n]
  try
    try
      x = 10 / (i % 2);
      y = y + x;
    finally
      z = z + 1;
    endtry
  except (E_DIV)
    y = y + 1;
  endtry
endfor
return y + z;
.
