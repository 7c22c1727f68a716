@turns 800 two calls of verbs that return a property
@create #-1 named holder
@property $holder.count 3
@property $holder.limit 5
@program $holder:count
return this.count;
.
@program $holder:limit
return this.limit;
.
@program run
{n} = args;
x = 0;
for i in [1..n]
  x = x + $holder:count() + $holder:limit();
endfor
return x;
.
