@turns 300 three properties whose names are elements of a list
@create #-1 named pronouns
@property $pronouns.ps "she"
@property $pronouns.po "her"
@property $pronouns.pp "hers"
@program run
{n} = args;
o = $pronouns;
names = {"ps", "po", "pp"};
x = 0;
for i in [1..n]
  for name in (names)
    x = x + length(o.(name));
  endfor
endfor
return x;
.
