@turns 250 each place of a word in a text replaced by a loop over `index`
@create #-1 named replacing
@program $replacing:replace
{text, old, new} = args;
done = "";
while (i = index(text, old))
  done = done + text[1..i - 1] + new;
  text = text[i + length(old)..$];
endwhile
return done + text;
.
@program run
{n} = args;
x = 0;
for i in [1..n]
  x = x + length($replacing:replace("the cat and the dog and the bird", "the", "one"));
endfor
return x;
.
