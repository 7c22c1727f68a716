@turns 700 one more at the end of a queue of twenty, and one less at its front
@program run
{n} = args;
q = {};
for i in [1..20]
  q = {@q, i};
endfor
x = 0;
for i in [1..n]
  q = {@q, i};
  x = x + q[1];
  q = listdelete(q, 1);
endfor
return x;
.
