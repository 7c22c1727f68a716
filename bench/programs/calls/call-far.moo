@turns 600 calls of two verbs of the first of six ancestors with 160 verbs
@create $core_6 named far_thing
@program run
{n} = args;
o = $far_thing;
x = 0;
for i in [1..n]
  x = x + o:titlec(i) + o:notify(1);
endfor
return x;
.
