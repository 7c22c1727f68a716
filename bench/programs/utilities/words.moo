@turns 25 the words of a command with a quoted part, letter by letter
@create #-1 named word_utils
@program $word_utils:words
{line} = args;
words = {};
word = "";
quoted = 0;
for i in [1..length(line)]
  c = line[i];
  if (c == "'")
    quoted = !quoted;
  elseif (c == " " && !quoted)
    if (word)
      words = {@words, word};
      word = "";
    endif
  else
    word = word + c;
  endif
endfor
return word ? {@words, word} | words;
.
@program run
{n} = args;
x = 0;
for i in [1..n]
  x = x + length($word_utils:words("put 'the old lamp' on table"));
endfor
return x;
.
