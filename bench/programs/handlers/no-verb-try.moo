@turns 400 a verb that neither an object nor its six ancestors have, in a `try`
@create $core_6 named deaf_thing
@program run
{n} = args;
o = $deaf_thing;
y = 0;
for i in [1..n]
  try
    y = y + o:weight(i);
  except (E_VERBNF)
    y = y + 1;
  endtry
endfor
return y;
.
