@turns 1000 a call with one argument, which a scatter takes
@create #-1 named taking_1
@program $taking_1:take
{a} = args;
return a;
.
@program run
{n} = args;
o = $taking_1;
x = 0;
for i in [1..n]
  x = x + o:take(i);
endfor
return x;
.
