@turns 25 a row of eight points in numbers of eight bits after the point
@program run
{n} = args;
total = 0;
for row in [1..n]
  ci = row % 16 * 32;
  for column in [1..8]
    cr = column * 64 - 512;
    zr = zi = steps = 0;
    while (steps < 12 && zr * zr + zi * zi < 262144)
      t = zr * zr - zi * zi;
      zi = zr * zi / 128 + ci;
      zr = t / 256 + cr;
      steps = steps + 1;
    endwhile
    total = total + steps;
  endfor
endfor
return total;
.
