@turns 700 a call with the elements of a list; an optional argument and the rest
@create #-1 named rest
@program $rest:rest
{a, ?b = 2, @c} = args;
return c;
.
@program run
{n} = args;
l = {1, 2, 3, 4};
x = 0;
for i in [1..n]
  x = x + length($rest:rest(@l));
endfor
return x;
.
