@turns 500 two calls of a verb with an optional argument
@create #-1 named optional
@program $optional:sum
{a, ?b = 2} = args;
return a + b;
.
@program run
{n} = args;
o = $optional;
x = 0;
for i in [1..n]
  x = x + o:sum(i);
  x = x + o:sum(i, 3);
endfor
return x;
.
