@turns 15 the moves of five discs, 63 calls
@create #-1 named hanoi
@property $hanoi.moves 0
@program $hanoi:carry
{count, from, to, via} = args;
if (count)
  this:carry(count - 1, from, via, to);
  this.moves = this.moves + 1;
  this:carry(count - 1, via, to, from);
endif
.
@program run
{n} = args;
$hanoi.moves = 0;
for i in [1..n]
  $hanoi:carry(5, "left", "right", "middle");
endfor
return $hanoi.moves;
.
