@turns 3000 a property one more, in a verb's loop over `this`
@create #-1 named counter
@property $counter.count 0
@program $counter:tally
{n} = args;
this.count = 0;
for i in [1..n]
  this.count = this.count + 1;
endfor
return this.count;
.
@program run
return $counter:tally(@args);
.
