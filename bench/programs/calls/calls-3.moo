@turns 700 a call with three arguments, which a scatter takes
@create #-1 named taking_3
@program $taking_3:take
{a, b, c} = args;
return a;
.
@program run
{n} = args;
o = $taking_3;
x = 0;
for i in [1..n]
  x = x + o:take(i, 2, 3);
endfor
return x;
.
