@turns 40 a line said in a place with ten listeners, who count what they hear
@create #-1 named listening
@property $listening.heard 0
@property $listening.gagged {}
@program $listening:tell
if (!(caller in this.gagged))
  this.heard = this.heard + length(tostr(@args));
endif
.
@create #-1 named square
@program $square:announce
{who, @text} = args;
for o in (setremove(this.contents, who))
  o:tell(@text);
endfor
.
@create $listening named heard_1
@move $heard_1 to $square
@create $listening named heard_2
@move $heard_2 to $square
@create $listening named heard_3
@move $heard_3 to $square
@create $listening named heard_4
@move $heard_4 to $square
@create $listening named heard_5
@move $heard_5 to $square
@create $listening named heard_6
@move $heard_6 to $square
@create $listening named heard_7
@move $heard_7 to $square
@create $listening named heard_8
@move $heard_8 to $square
@create $listening named heard_9
@move $heard_9 to $square
@create $listening named heard_0
@move $heard_0 to $square
@program run
{n} = args;
$heard_1.heard = $heard_5.heard = 0;
for i in [1..n]
  $square:announce($heard_1, "Frances", " says, \"", "Good evening.", "\"");
endfor
return $heard_5.heard + $heard_1.heard;
.
