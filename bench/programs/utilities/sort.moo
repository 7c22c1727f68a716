@turns 12 twelve names sorted by keys: each key is looked for and put into its place
@create #-1 named sort_utils
@program $sort_utils:find_insert
{lst, key} = args;
if ((r = length(lst)) < 8)
  for l in [1..r]
    if (lst[l] > key)
      return l;
    endif
  endfor
  return r + 1;
endif
l = 1;
while (r >= l)
  if (key < lst[i = (r + l) / 2])
    r = i - 1;
  else
    l = i + 1;
  endif
endwhile
return l;
.
@program $sort_utils:sort
{lst, keys} = args;
sorted_lst = sorted_keys = {};
for e in [1..length(lst)]
  k = this:find_insert(sorted_keys, keys[e]);
  sorted_keys = listinsert(sorted_keys, keys[e], k);
  sorted_lst = listinsert(sorted_lst, lst[e], k);
endfor
return sorted_lst;
.
@program run
{n} = args;
names = {"oak", "elm", "ash", "fir", "yew", "box", "bay", "fig", "nut", "may", "tea", "sal"};
keys = {57, 13, 99, 4, 76, 31, 68, 22, 85, 40, 11, 92};
x = 0;
for i in [1..n]
  s = $sort_utils:sort(names, keys);
  x = x + (s[1] == "fir") + (s[12] == "ash");
endfor
return x;
.
