@turns 10 the ways to change fifty cents, by a table
@program run
{n} = args;
coins = {1, 5, 10, 25};
x = 0;
for i in [1..n]
  ways = {1};
  for k in [1..50]
    ways = {@ways, 0};
  endfor
  for coin in (coins)
    for sum in [coin..50]
      ways[sum + 1] = ways[sum + 1] + ways[sum + 1 - coin];
    endfor
  endfor
  x = x + ways[51];
endfor
return x;
.
