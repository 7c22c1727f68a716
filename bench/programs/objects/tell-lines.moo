@turns 8 eight lines of a note, each numbered and sent
@create #-1 named notice
@property $notice.text {"Welcome to the hall.", "", "Please wipe your feet.", "Do not feed the cat.", "Supper is at six.", "", "The lamp is lit at night.", "Thank you."}
@program $notice:show
{who} = args;
number = 0;
for line in (this.text)
  number = number + 1;
  notify(who, tostr(number, ": ", line));
endfor
return number;
.
@program run
{n} = args;
x = 0;
for i in [1..n]
  x = x + $notice:show(player);
endfor
return x;
.
