@turns 800 a call of a verb that the second ancestor has
@create #-1 named weighty
@property $weighty.weight 2
@program $weighty:heavier
{other} = args;
return this.weight > other;
.
@create $weighty named furniture
@create $furniture named chair
@set $chair.weight to 700
@program run
{n} = args;
o = $chair;
x = 0;
for i in [1..n]
  if (o:heavier(i))
    x = x + 1;
  endif
endfor
return x;
.
