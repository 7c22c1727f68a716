@turns 60 a number in Roman letters
@create #-1 named roman
@property $roman.values {100, 90, 50, 40, 10, 9, 5, 4, 1}
@property $roman.letters {"C", "XC", "L", "XL", "X", "IX", "V", "IV", "I"}
@program $roman:letters_of
{number} = args;
s = "";
for i in [1..length(this.values)]
  while (number >= this.values[i])
    s = s + this.letters[i];
    number = number - this.values[i];
  endwhile
endfor
return s;
.
@program run
{n} = args;
x = 0;
for i in [1..n]
  x = x + length($roman:letters_of(i));
endfor
return x;
.
