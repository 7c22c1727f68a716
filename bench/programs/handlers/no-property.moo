@turns 600 a property that isn't there, with a default: a catch; `getattr` and `or`
@create #-1 named plain_thing
@property $plain_thing.weight 3
@program run
{n} = args;
o = $plain_thing;
y = 0;
for i in [1..n]
  y = y + `o.opaque ! E_PROPNF => 1' + `o.weight ! E_PROPNF => 0';
endfor
return y;
.
