@turns 400 calls of verbs of the first, the third and the fifth of six ancestors with 160 verbs
@create $core_6 named mid_thing
@program run
{n} = args;
o = $mid_thing;
x = 0;
for i in [1..n]
  x = x + o:description(i) + o:tell_lines(1) + o:check_quota(2);
endfor
return x;
.
