@turns 500 a property that isn't there, in a `try`
@create #-1 named bare_thing
@property $bare_thing.weight 3
@program run
{n} = args;
o = $bare_thing;
y = 0;
for i in [1..n]
  try
    y = y + o.opaque;
  except (E_PROPNF)
    y = y + 1;
  endtry
endfor
return y;
.
