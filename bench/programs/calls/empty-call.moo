@turns 2000 a call of a verb without statements
@create #-1 named idle
@program $idle:none
.
@program run
{n} = args;
o = $idle;
for i in [1..n]
  o:none();
endfor
return n;
.
