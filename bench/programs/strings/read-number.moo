@turns 60 a sum of numbers read digit by digit from a line
@create #-1 named reading
@program $reading:sum
{s} = args;
sum = number = 0;
for i in [1..length(s)]
  if (d = index("0123456789", s[i]))
    number = number * 10 + d - 1;
  else
    sum = sum + number;
    number = 0;
  endif
endfor
return sum + number;
.
@program run
{n} = args;
x = 0;
for i in [1..n]
  x = x + $reading:sum("12, 345 and 6789");
endfor
return x;
.
