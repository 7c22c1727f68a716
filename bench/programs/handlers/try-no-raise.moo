@turns 2500 a `try` in which nothing is raised
@program run
{n} = args;
y = 0;
for i in [1..n]
  try
    x = 100 / i;
    y = y + x;
  except (E_DIV)
    y = y + 1;
  endtry
endfor
return y;
.
