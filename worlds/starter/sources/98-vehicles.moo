// A vehicle: a room that is in a room, and is driven through its exits by who is in it.

;$vehicle.f = 1; $vehicle.aliases = {};

@program $vehicle:"enter board" this none none rd
if (this.location != player.location || !valid(this.location))
  player:tell("It isn't within reach.");
  return;
endif
from = player.location;
if (`player:moveto(this) ! E_NACC, E_PERM, E_RECMOVE => 1' || player.location != this)
  player:tell("You can't get in.");
else
  from:announce(tostr(player.name, " gets into ", $string:the(this.name), "."), {player});
  this:announce(tostr(player.name, " gets in."), {player});
endif
.

@program $vehicle:"leave out" none none none rd
to = this.location;
if (player.location != this)
  return;
elseif (!valid(to) || `player:moveto(to) ! E_NACC, E_PERM, E_RECMOVE => 1' || player.location != to)
  player:tell("You can't get out here.");
else
  this:announce(tostr(player.name, " gets out."), {player});
  to:announce(tostr(player.name, " gets out of ", $string:the(this.name), "."), {player});
endif
.

// drive WAY: through an exit of the room that it is in, if the driver himself may go there
@program $vehicle:drive any any any rd
here = this.location;
if (player.location != this || !$player:lets_speak(player))
  return;
elseif (!$isa(here, $room))
  player:tell("It is nowhere.");
  return;
endif
e = $match:among($string:unquoted(argstr), here.exits);
if (!valid(e))
  player:tell(argstr ? (e == #-2 ? "There is more than one exit that begins so." | "There is no exit " + $string:quoted(argstr) + " there.") | "Drive where?");
  ways = $string:names(here.exits);
  player:tell_lines(ways ? $string:flow("Ways:", ways) | {"There are no exits there."});
elseif (!$isa(e, $exit) || !$isa(e.dest, $room) || !e:unlocked_for(player) || !(`e.dest:accept(player) ! ANY => 0'))
  player:tell("You can't drive there.");
elseif (e:move(this))
  this:announce(tostr("You come to ", this.location.name, "."));
  this.location:look_self(player);
else
  player:tell("It doesn't go there.");
endif
.

@program $vehicle:look_self this none this rxd
{who} = args;
if (who.location == this)
  pass(who);
  who:tell(valid(this.location) ? "Outside: " + this.location.name + ". (leave, drive WAY)" | "Outside is nothing.");
else
  lines = $string:lines(`this.description ! ANY => ""');
  who:tell_lines(lines ? lines | {"You could enter it: enter " + this.name});
  this:look_inside(who);
endif
.

@program $vehicle:look_inside this none this rxd
{who} = args;
this.contents ? pass(who) | who:tell("It is empty.");
.

// Most vehicles have no exits of their own, and `leave` is the way out.
@program $vehicle:tell_exits this none this rxd
return this.exits ? pass(@args) | 0;
.

@program $vehicle:accept this none this rxd
{what} = args;
return is_player(what) ? length(this.contents) < 20 && pass(what) | length(this.contents) < 50;
.

// It is carried by nobody, and its people are not left nowhere.
@program $vehicle:moveto this none this rxd wiz
{where} = args;
if (!(caller == this || caller_perms() == $keeper || $controls(caller_perms(), this)))
  raise(E_PERM);
elseif (!$isa(where, $room) || !where:accept(this))
  raise(E_NACC);
endif
return move(this, where);
.
