@turns 1000 a call with two arguments, which a scatter takes
@create #-1 named taking_2
@program $taking_2:take
{a, b} = args;
return a;
.
@program run
{n} = args;
o = $taking_2;
x = 0;
for i in [1..n]
  x = x + o:take(i, 2);
endfor
return x;
.
