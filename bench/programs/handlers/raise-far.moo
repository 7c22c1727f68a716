@turns 300 an error raised with a message four calls below the handler
@create #-1 named refusing
@program $refusing:top
{x} = args;
return this:second(x) + 1;
.
@program $refusing:second
{x} = args;
return this:third(x) + 1;
.
@program $refusing:third
{x} = args;
return this:last(x) + 1;
.
@program $refusing:last
{x} = args;
if (x)
  raise(E_INVARG, "No such thing.");
endif
return 0;
.
@program run
{n} = args;
y = 0;
for i in [1..n]
  try
    y = y + $refusing:top(i % 2);
  except e (E_INVARG)
    y = y + length(e[2]);
  endtry
endfor
return y;
.
