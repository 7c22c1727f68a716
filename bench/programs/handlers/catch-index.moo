@turns 900 an element past the end of a list, each second turn, caught
@program run
{n} = args;
l = {1, 2, 3};
y = 0;
for i in [1..n]
  y = y + `l[2 + i % 2 * 2] ! E_RANGE => 7';
endfor
return y;
.
