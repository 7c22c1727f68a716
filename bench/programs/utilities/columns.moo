@turns 20 ten names in three columns
@create #-1 named column_utils
@program $column_utils:columnize
{items, count, ?width = 60} = args;
rows = (length(items) + count - 1) / count;
each = width / count;
lines = {};
for r in [1..rows]
  line = "";
  for c in [0..count - 1]
    k = r + c * rows;
    if (k <= length(items))
      item = items[k];
      while (length(item) < each)
        item = item + "    ";
      endwhile
      line = line + item[1..each];
    endif
  endfor
  lines = {@lines, line};
endfor
return lines;
.
@program run
{n} = args;
names = {"oak", "elm", "ash", "fir", "yew", "box", "bay", "fig", "nut", "may"};
x = 0;
for i in [1..n]
  for line in ($column_utils:columnize(names, 3))
    x = x + length(line);
  endfor
endfor
return x;
.
