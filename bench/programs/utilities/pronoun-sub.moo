@turns 80 a message with five substitutions
@create #-1 named gender_utils
@program $gender_utils:pronoun_sub
{text, who, thing} = args;
done = "";
while ((i = index(text, "%")) && i < length(text))
  s = text[i + 1];
  if (s == "%")
    sub = "%";
  elseif (s == "n")
    sub = who.title;
  elseif (s == "d")
    sub = thing.title;
  elseif (k = s in {"s", "o", "p", "q", "r"})
    sub = who.({"ps", "po", "pp", "pq", "pr"}[k]);
  else
    sub = "%" + s;
  endif
  done = done + text[1..i - 1] + sub;
  text = text[i + 2..$];
endwhile
return done + text;
.
@create #-1 named gender_who
@property $gender_who.title "Frances"
@property $gender_who.ps "she"
@property $gender_who.po "her"
@property $gender_who.pp "her"
@property $gender_who.pq "hers"
@property $gender_who.pr "herself"
@create #-1 named gender_thing
@property $gender_thing.title "the lamp"
@program run
{n} = args;
x = 0;
for i in [1..n]
  x = x + length($gender_utils:pronoun_sub("%n lifts %d over %p head, and %s hurts %r.", $gender_who, $gender_thing));
endfor
return x;
.
