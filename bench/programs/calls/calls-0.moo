@turns 1000 a call with no argument
@create #-1 named taking_0
@program $taking_0:take
return 1;
.
@program run
{n} = args;
o = $taking_0;
x = 0;
for i in [1..n]
  x = x + o:take();
endfor
return x;
.
