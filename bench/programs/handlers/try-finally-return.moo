@turns 700 a call of a verb that returns out of a `finally`
@create #-1 named locking
@property $locking.locked 0
@program $locking:read
{x} = args;
this.locked = 1;
try
  return x + 1;
finally
  this.locked = 0;
endtry
.
@program run
{n} = args;
y = 0;
for i in [1..n]
  y = y + $locking:read(i);
endfor
return y + $locking.locked;
.
