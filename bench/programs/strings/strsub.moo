@turns 500 three replacements in a message
@program run
{n} = args;
x = 0;
for i in [1..n]
  s = strsub("You take %d from %i.", "%d", "the lamp");
  s = strsub(s, "%i", "the chest");
  s = strsub(s, "%n", "Frances");
  x = x + length(s);
endfor
return x;
.
