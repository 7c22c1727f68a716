@turns 700 an element of a list in a property, read and set
@create #-1 named board
@property $board.cells {0, 0, 0, 0, 0, 0, 0, 0, 0, 0}
@program run
{n} = args;
b = $board;
for i in [1..10]
  b.cells[i] = 0;
endfor
for i in [1..n]
  k = i % 10 + 1;
  b.cells[k] = b.cells[k] + i;
endfor
return b.cells[3];
.
