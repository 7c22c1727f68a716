@turns 800 a call of a verb of five statements
@create #-1 named five
@program $five:five
{a, b} = args;
c = a + b;
d = c * 2;
e = d - a;
return e;
.
@program run
{n} = args;
o = $five;
x = 0;
for i in [1..n]
  x = x + o:five(i, 7);
endfor
return x;
.
