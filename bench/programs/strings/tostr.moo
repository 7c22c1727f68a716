@turns 500 a line made of words and numbers
@program run
{n} = args;
x = 0;
for i in [1..n]
  x = x + length(tostr("You have ", i, " coins and ", i % 7, " stamps."));
endfor
return x;
.
