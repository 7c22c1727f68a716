@turns 500 a verb that isn't there, with a default: a catch; `getattr` and a test
@create $core_1 named mute_thing
@program run
{n} = args;
o = $mute_thing;
y = 0;
for i in [1..n]
  y = y + `o:weight(i) ! E_VERBNF => 1' + `o:titlec(i) ! E_VERBNF => 0';
endfor
return y;
.
