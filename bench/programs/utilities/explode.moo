@turns 35 a line of nine words into a list of them
@create #-1 named explode_utils
@program $explode_utils:explode
{subject, ?breakit = " "} = args;
breakit = breakit[1];
subject = subject + breakit;
parts = {};
while (subject)
  if ((i = index(subject, breakit)) > 1)
    parts = {@parts, subject[1..i - 1]};
  endif
  subject = subject[i + 1..$];
endwhile
return parts;
.
@program run
{n} = args;
x = 0;
for i in [1..n]
  x = x + length($explode_utils:explode("the quick brown fox jumps over the lazy dog"));
endfor
return x;
.
