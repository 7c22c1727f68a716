@turns 400 the literal of a list of a number, a string and a list
@program run
{n} = args;
x = 0;
for i in [1..n]
  x = x + length(toliteral({i, "lamp", {1, 2, 3}}));
endfor
return x;
.
