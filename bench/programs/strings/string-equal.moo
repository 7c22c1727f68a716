@turns 1200 a command's word compared with four
@program run
{n} = args;
words = {"take", "drop", "give", "throw"};
x = 0;
for i in [1..n]
  w = words[i % 4 + 1];
  if (w == "take")
    x = x + 1;
  elseif (w == "drop")
    x = x + 2;
  elseif (w == "give")
    x = x + 3;
  elseif (w == "throw")
    x = x + 4;
  endif
endfor
return x;
.
