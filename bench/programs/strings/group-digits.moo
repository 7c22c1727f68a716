@turns 100 a number of seven digits with commas, by a loop over its digits
@create #-1 named digits
@program $digits:group
{number} = args;
s = tostr(number);
r = "";
while (length(s) > 3)
  r = "," + s[$ - 2..$] + r;
  s = s[1..$ - 3];
endwhile
return s + r;
.
@program run
{n} = args;
x = 0;
for i in [1..n]
  s = $digits:group(1234567 + i);
  x = x + length(s) + toint(s[$]);
endfor
return x;
.
