@turns 500 the first letter of a name as a capital
@create #-1 named capital_utils
@property $capital_utils.small "abcdefghijklmnopqrstuvwxyz"
@property $capital_utils.large "ABCDEFGHIJKLMNOPQRSTUVWXYZ"
@program $capital_utils:capitalize
{string} = args;
if (string && (i = index(this.small, string[1], 1)))
  string[1] = this.large[i];
endif
return string;
.
@program run
{n} = args;
names = {"oak table", "Brass lamp"};
x = 0;
for i in [1..n]
  if (strcmp($capital_utils:capitalize(names[i % 2 + 1]), "Oak table") == 0)
    x = x + 1;
  endif
endfor
return x;
.
