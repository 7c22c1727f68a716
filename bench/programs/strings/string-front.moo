@turns 50 a string of forty letters, each put at its front
@program run
{n} = args;
x = 0;
for i in [1..n]
  s = "";
  for j in [1..40]
    s = "x" + s;
  endfor
  x = x + length(s);
endfor
return x;
.
