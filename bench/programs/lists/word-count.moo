@turns 30 how often each of the 20 words of a list is in it, by two lists
@program run
{n} = args;
l = {"the", "cat", "and", "the", "dog", "and", "the", "bird", "saw", "a", "cat", "and", "a", "dog", "in", "the", "tree", "by", "the", "lake"};
x = 0;
for i in [1..n]
  words = counts = {};
  for w in (l)
    if (k = w in words)
      counts[k] = counts[k] + 1;
    else
      words = {@words, w};
      counts = {@counts, 1};
    endif
  endfor
  x = x + counts[1] + length(words);
endfor
return x;
.
