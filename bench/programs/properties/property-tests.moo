@turns 350 a verb with properties, tests and a list
@create #-1 named queueing
@property $queueing.size 0
@program $queueing:bump
{n, what} = args;
this.size = this.size + n % 3;
if (what == "cat" && n > 2)
  m = {n, what, this.size};
else
  m = {};
endif
return length(m) ? m[3] | 0;
.
@program run
{n} = args;
$queueing.size = 0;
x = 0;
for i in [1..n]
  x = x + $queueing:bump(i, "cat");
endfor
return x;
.
