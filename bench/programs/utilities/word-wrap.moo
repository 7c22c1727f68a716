@turns 60 a text of 132 letters in lines of at most thirty
@create #-1 named wrap_utils
@program $wrap_utils:wrap
{text, width} = args;
lines = {};
while (length(text) > width)
  cut = rindex(text[1..width + 1], " ");
  if (cut)
    lines = {@lines, text[1..cut - 1]};
    text = text[cut + 1..$];
  else
    lines = {@lines, text[1..width]};
    text = text[width + 1..$];
  endif
endwhile
return {@lines, text};
.
@program run
{n} = args;
text = "You see a large room with a high ceiling, an oak table and six chairs. On the north wall hangs a portrait of an old man with a beard.";
x = 0;
for i in [1..n]
  for line in ($wrap_utils:wrap(text, 30))
    x = x + length(line);
  endfor
endfor
return x;
.
