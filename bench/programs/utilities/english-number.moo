@turns 100 a number below a thousand in words
@create #-1 named number_utils
@property $number_utils.ones {"one", "two", "three", "four", "five", "six", "seven", "eight", "nine", "ten", "eleven", "twelve", "thirteen", "fourteen", "fifteen", "sixteen", "seventeen", "eighteen", "nineteen"}
@property $number_utils.tens {"ten", "twenty", "thirty", "forty", "fifty", "sixty", "seventy", "eighty", "ninety"}
@program $number_utils:english_number
{number} = args;
if (number == 0)
  return "zero";
elseif (number < 20)
  return this.ones[number];
elseif (number < 100)
  return this.tens[number / 10] + (number % 10 ? "-" + this.ones[number % 10] | "");
else
  rest = number % 100;
  return this.ones[number / 100] + " hundred" + (rest ? " and " + this:english_number(rest) | "");
endif
.
@program run
{n} = args;
x = 0;
for i in [1..n]
  x = x + length($number_utils:english_number(i * 37 % 1000));
endfor
return x;
.
