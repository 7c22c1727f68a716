@turns 700 a call with five arguments, which a scatter takes
@create #-1 named taking_5
@program $taking_5:take
{a, b, c, d, e} = args;
return a;
.
@program run
{n} = args;
o = $taking_5;
x = 0;
for i in [1..n]
  x = x + o:take(i, 2, 3, 4, 5);
endfor
return x;
.
