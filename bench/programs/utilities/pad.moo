@turns 100 a row of a table: a name padded right, a number padded left
@create #-1 named pad_utils
@program $pad_utils:space
{count, ?fill = " "} = args;
while (length(fill) < count)
  fill = fill + fill;
endwhile
return fill[1..count];
.
@program $pad_utils:left
{text, width} = args;
text = tostr(text);
len = length(text);
return len < width ? text + this:space(width - len) | text;
.
@program $pad_utils:right
{text, width} = args;
text = tostr(text);
len = length(text);
return len < width ? this:space(width - len) + text | text;
.
@program run
{n} = args;
x = 0;
for i in [1..n]
  row = $pad_utils:left("brass lamp", 18) + $pad_utils:right(i, 7);
  x = x + length(row);
endfor
return x;
.
