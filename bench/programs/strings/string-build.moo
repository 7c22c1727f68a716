@turns 50 a string of forty letters, one by one
@program run
{n} = args;
x = 0;
for i in [1..n]
  s = "";
  for j in [1..40]
    s = s + "x";
  endfor
  x = x + length(s);
endfor
return x;
.
