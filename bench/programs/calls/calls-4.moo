@turns 700 a call with four arguments, which a scatter takes
@create #-1 named taking_4
@program $taking_4:take
{a, b, c, d} = args;
return a;
.
@program run
{n} = args;
o = $taking_4;
x = 0;
for i in [1..n]
  x = x + o:take(i, 2, 3, 4);
endfor
return x;
.
