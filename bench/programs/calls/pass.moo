@turns 250 a verb that passes to its parent's, which does so too
@create #-1 named base_kind
@program $base_kind:rank
{a} = args;
return a;
.
@create $base_kind named middle_kind
@program $middle_kind:rank
{a} = args;
return pass(@args) + 1;
.
@create $middle_kind named upper_kind
@program $upper_kind:rank
{a} = args;
return pass(a) + 2;
.
@program run
{n} = args;
x = 0;
for i in [1..n]
  x = x + $upper_kind:rank(i);
endfor
return x;
.
