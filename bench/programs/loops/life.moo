@turns 5 a step of Life on a board of six by six
@create #-1 named life
@program $life:step
{board} = args;
size = length(board);
next = {};
for r in [1..size]
  row = {};
  for c in [1..size]
    count = 0;
    for dr in [max(1, r - 1)..min(size, r + 1)]
      for dc in [max(1, c - 1)..min(size, c + 1)]
        count = count + board[dr][dc];
      endfor
    endfor
    row = {@row, count == 3 || (count == 4 && board[r][c])};
  endfor
  next = {@next, row};
endfor
return next;
.
@program run
{n} = args;
board = {{0, 1, 0, 0, 0, 0}, {0, 0, 1, 0, 0, 0}, {1, 1, 1, 0, 0, 0}, {0, 0, 0, 0, 0, 0}, {0, 0, 0, 0, 1, 1}, {0, 0, 0, 0, 1, 1}};
for i in [1..n]
  board = $life:step(board);
endfor
x = 0;
for row in (board)
  for cell in (row)
    x = 2 * x % 10007 + cell;
  endfor
endfor
return x;
.
