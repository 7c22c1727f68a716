// Builders: every player that was created. What they do is done with their own rights.

// For who types a command that others have, and names one of them with it.
@program $builder:refuse this none this rxd
hint = $room:hint(args[1]);
player:tell(hint ? hint | "I don't understand that. Type help.");
.

// Why O wasn't changed, after the error E: whose it is, or what went wrong.
@program $builder:why this none this rxd
{e, o, ?word = "done"} = args;
return e[1] == E_PERM && !$controls(player, o) ? $string:subject(o.name) + " isn't yours." | tostr("That can't be ", word, ": ", e[2], ".");
.

@program $builder:@rename any any any rd wiz
if (player != this)
  return $builder:refuse(verb);
endif
p = $string:split(args, "to");
if (!p || !p[1] || !p[2])
  player:tell("For example: @rename whistle to tin whistle,whistle,pipe");
  return;
endif
o = $match:object(p[1], player);
if (!$match:found(o, p[1], player))
  return;
elseif (!$controls(player, o))
  player:tell($string:subject(o.name), " isn't yours.");
  return;
elseif (is_player(o) && !(p[1] in {"me", o.name, tostr(o), @(typeof(more = `o.aliases ! ANY => {}') == LIST ? more | {})}) && !index("#$", p[1][1]))
  // one connects by this name: it isn't changed by mistake
  player:tell("Type the whole name of a player, or  @rename me to ", p[2]);
  return;
elseif (!$player:lets_speak(player))
  return;
endif
names = {};
if (length(p[2]) > 600)
  player:tell("That is too long for names.");
  return;
endif
for n in ($string:explode(p[2], ","))
  n = $string:trim(n);
  fault = is_player(o) ? $login:name_fault(n, o) | $string:name_fault(n);
  if (fault)
    player:tell(fault);
    return;
  endif
  names = {@names, n};
  if (length(names) > 10)
    player:tell("Ten names are enough.");
    return;
  endif
endfor
if (!names)
  player:tell("A name is wanted.");
  return;
elseif (!is_player(o) && !$isa(o, $room))
  names = $string:with_bare(names);
endif
if (is_player(o) && !player.wizard && !equal(names[1], o.name))
  // each new name is a line of the record, which is to keep other things too
  {day, n} = o.renamed;
  since = time() - day;
  {day, n} = since < 0 || since >= 86400 ? {time(), 0} | {day, n};
  if (n >= 10)
    player:tell("You have had ten new names today.");
    return;
  endif
  o.renamed = {day, n + 1};
endif
if ($isa(o, $exit) && valid(from = `o.source ! ANY => #-1') && (n = `from:taken_name(names, o) ! ANY => ""'))
  player:tell("There is an exit ", $string:quoted(n), " in ", from.name, " already.");
  return;
endif
// only a wizard sets a player's name; so the verb is a wizard's, after the questions above
before = o.name;
o.name = names[1];
if (!is_player(o))
  set_task_perms(player);
elseif (before != o.name)
  $record:add(tostr(before, ": @rename ", o, " to ", o.name));
endif
`o.aliases = names[2..$] ! E_PROPNF, E_PERM';
if (is_player(o))
  $match:enter(o);
endif
player:tell(o == player ? "You are" | (is_player(o) ? before + " is" | "It is"), " called ", $string:join(names, ", "), " (", o, ") now.");
if (is_player(o) && o != player && before != o.name)
  notify(o, tostr(player.name, " has given you the name ", o.name, ": you connect by it from now on."));
endif
if ($isa(o, $exit))
  this:warn_of(names, `o.source ! ANY => #-1');
endif
.

// @create PARENT named NAME,OTHER NAME
@program $builder:@create any any any rd wiz
if (player != this || !$player:lets_speak(player))
  return;
endif
set_task_perms(player);
p = $string:split(args, "named");
p = p ? p | $string:split(args, "called");
if (!p || !p[1] || !p[2])
  player:tell("For example: @create $thing named tin whistle,whistle");
  return;
endif
kind = $match:object(p[1], player);
if (!$match:found(kind, p[1], player))
  player:tell("Kinds of things: $thing, $container, $board, $note, $vehicle.");
  return;
elseif (($isa(kind, $room) && !$isa(kind, $vehicle)) || $isa(kind, $exit))
  player:tell("Rooms and exits are made by @dig.");
  return;
elseif (is_player(kind) || !(kind.f || $controls(player, kind)))
  player:tell("You can't make things of the kind ", kind.name, ". Kinds of things: $thing, $container, $board, $note, $vehicle.");
  return;
elseif (length(player.contents) >= 50 && !player.wizard && !$isa(kind, $vehicle))
  player:tell("You carry 50 things already. Put one down first.");
  return;
endif
names = this:names_of(p[2]);
if (!names)
  return;
endif
try
  o = $recycler:make(kind);
  o.name = names[1];
  o.r = 1;
  // the other names of its kind aren't its own
  if (length(names) > 1 || o.aliases)
    o.aliases = names[2..$];
  endif
  here = player.location;
  // a vehicle is in a room, and never in somebody's hands
  `move(o, $isa(o, $vehicle) ? ($isa(here, $room) && (`here:accept(o) ! ANY => 0') ? here | #-1) | player) ! ANY';
  if (!valid(o.location))
    // a room answers only for a thing that there is; one that has no place is taken away again
    $recycler:keep(o);
    player:tell("There is no place for it, here or in your hands.");
    return;
  endif
  player:tell("You have made ", names[1], " (", o, "). ", this:quota_text());
except e (E_QUOTA)
  player:tell(e[2] == "Resource limit exceeded" ? "Your quota is used up. @recycle something, or ask a wizard." | "That can't be done: " + e[2] + ".");
except e (ANY)
  player:tell("That can't be made: ", e[2], ".");
endtry
.

// The names in TEXT, or {} if one is no name (the player gets a line).
@program $builder:names_of this none this rxd
names = {};
if (length(args[1]) > 600)
  player:tell("That is too long for names.");
  return {};
endif
for n in ($string:explode(args[1], ","))
  n = $string:trim(n);
  fault = $string:name_fault(n);
  if (fault)
    player:tell(fault);
    return {};
  endif
  names = {@names, n};
endfor
if (!names || length(names) > 10)
  player:tell("One to ten names are wanted.");
  return {};
endif
return $string:with_bare(names);
.

@program $builder:quota_text this none this rxd
q = `this.ownership_quota ! ANY => 0';
return typeof(q) == INT ? tostr("You can make ", max(0, q), " more.") | "";
.

// @quota, @quota NAME
@program $builder:@quota any any any rd
if (player != this)
  return $builder:refuse(verb);
elseif (!argstr)
  player:tell(this:quota_text());
  return;
elseif (prepstr == "is")
  player:tell("A wizard types  @newquota NAME is N.");
  return;
endif
o = $match:player(argstr);
if ($match:found_player(o, argstr, player))
  player:tell(o.name, " can make ", `o.ownership_quota ! ANY => 0', " more.");
endif
.

// Why others may need O, or "": it is the core's, there are things of its kind, or people are in it, of whom twenty are named.
@program $builder:needed_for this none this rxd
{o} = args;
if ($recycler:is_core(o))
  return " belongs to the core of this world, whose programs may need it.";
elseif (kids = length(children(o)))
  return tostr(" has ", kids, kids == 1 ? " child." | " children.");
endif
people = {};
for p in (o.contents)
  people = is_player(p) && p != player ? {@people, p} | people;
endfor
n = length(people);
names = $string:names(people[1..min(20, n)]);
return people ? tostr(" has people in it: ", $string:english(n > 20 ? {@names, tostr(n - 20, " more")} | names), ".") | "";
.

// @recycle THING asks if others need the thing; @recycle! THING does it
@program $builder:"@recycle @recycle!" any any any rd wiz
if (player != this)
  return $builder:refuse(verb);
endif
set_task_perms(player);
o = $match:object(argstr, player);
if (!$match:found(o, argstr, player))
  return;
elseif (is_player(o))
  player:tell("Players aren't recycled.");
  return;
elseif (!$controls(player, o))
  player:tell($string:subject(o.name), " isn't yours.");
  return;
elseif (o <= #3 || o == $login.start)
  player:tell("The world can't be without it.");
  return;
endif
name = tostr(o.name, " (", o, ")");
fault = verb == "@recycle!" ? "" | this:needed_for(o);
if (fault)
  player:tell_lines({@$string:wrap(name + fault), "If you are sure, type  @recycle! " + argstr});
  return;
endif
try
  $recycler:keep(o);
  player:tell(name, " is gone. ", this:quota_text());
except e (ANY)
  player:tell("That can't be recycled: ", e[2], ".");
endtry
.

// @dig NAME; @dig north,n to NAME or #12; @dig north,n|south,s to NAME
@program $builder:"@dig @link" any any any rd wiz
if (player != this || !$player:lets_speak(player))
  return;
endif
set_task_perms(player);
here = player.location;
p = $string:split(args, "to");
to = p ? p[2] | $string:join(args);
if (!to || (p && !p[1]) || (verb == "@link" && !p))
  player:tell("For example: @dig The Attic   or: @dig up,u|down,d to The Attic   or: @link up,u to #12");
  return;
endif
room = #-3;
if (verb == "@link" || to[1] == "#" || to[1] == "$")
  room = to == "here" ? here | $match:object(to, player);
  if (!$isa(room, $room))
    player:tell("There is no room ", $string:quoted(to), ".");
    return;
  endif
elseif (fault = $string:name_fault(to))
  player:tell(fault);
  return;
endif
ways = {};
for w in (p ? $string:explode(p[1], "|") | {})
  names = this:names_of(w);
  if (!names)
    return;
  endif
  ways = {@ways, names};
endfor
if (length(ways) > 2)
  player:tell("A way there, and perhaps a way back: that is all.");
  return;
endif
fresh = !valid(room);
if (ways && !(`here.free_exits ! ANY => 0') && !$controls(player, here))
  player:tell("You can't make exits here: the room isn't yours. The meadow is free to all.");
  return;
elseif (length(ways) == 2 && !fresh && !$controls(player, room) && !`room.free_exits ! ANY => 0')
  player:tell("You can't make an exit there: the room isn't yours.");
  return;
endif
// first it is asked whether all of it can be made: else a room without ways would be left
fault = $recycler:fault(player, length(ways) + fresh);
fault = fault || !ways ? fault | here:exit_fault(player);
fault = fault || length(ways) < 2 || fresh ? fault | room:exit_fault(player);
fault = fault || !ways || !(n = here:taken_name(ways[1], #-1)) ? fault | tostr("There is an exit ", $string:quoted(n), " here already.");
fault = fault || length(ways) < 2 || fresh || !(n = room:taken_name(ways[2], #-1)) ? fault | tostr("There is an exit ", $string:quoted(n), " in ", room.name, " already.");
if (fault)
  player:tell(fault, fresh && index(fault, "There are 40 exits") ? tostr(" (@dig ", to, "  makes the room without one.)") | "");
  return;
endif
try
  if (fresh)
    room = $recycler:make($room);
    room.name = to;
    room.r = 1;
    player:tell("You have dug ", to, " (", room, ").");
  endif
  if (ways)
    this:make_exit(ways[1], here, room);
    if (length(ways) == 2)
      this:make_exit(ways[2], room, here);
    endif
  elseif (fresh)
    player:tell("Nothing leads there yet. Type  @go ", room, ".");
  endif
except e (E_QUOTA)
  player:tell(e[2] == "Resource limit exceeded" ? "Your quota is used up." | "That can't be done: " + e[2] + ".");
except e (ANY)
  player:tell("That can't be done: ", e[2], ".");
endtry
player:tell(this:quota_text());
.

// Makes an exit with the caller's rights; one that can't be hung up is taken away again.
@program $builder:make_exit this none this rxd wiz
set_task_perms(caller_perms());
{names, from, to} = args;
e = $recycler:make($exit);
try
  e.name = names[1];
  e.aliases = names[2..$];
  e.r = 1;
  e:set_ends(from, to);
  from:add_exit(e);
except x (ANY)
  $recycler:keep(e);
  raise(x[1], x[2]);
endtry
this:tell("You have made the exit ", names[1], " (", e, ") from ", from.name, " to ", to.name, ".");
this:warn_of(names, from);
return e;
.

// Warns who makes an exit in ROOM of those of its names that run a command when they are typed.
@program $builder:warn_of this none this rxd
{names, room} = args;
for n in (names)
  {word, @more} = $string:explode(n);
  found = 0;
  for k in ({this, room})
    while (valid(k) && !found)
      a = `verb_args(k, word) ! E_VERBNF, E_PERM => {"this", "none", "this"}';
      found = !("this" in a) && (!more || a[1] == "any");
      k = parent(k);
    endwhile
  endfor
  if (found)
    this:tell($string:quoted(word), " is a command: type  go ", n, "  to walk there.");
  endif
endfor
.

// @go ROOM: to a room of one's own, or home
@program $builder:@go any any any rd wiz
if (player != this)
  return $builder:refuse(verb);
endif
room = $match:object(argstr, player);
room = room == #-3 && $string:trim(argstr) == "home" ? player.home | room;
if (!$match:found(room, argstr, player))
  player:tell("@go #N takes you to a room of yours; @audit has the numbers.");
  return;
elseif (!$isa(room, $room) || !($controls(player, room) || room == player.home))
  player:tell("@go takes you only to rooms of your own, and home.");
  return;
elseif (room == player.location)
  player:tell("You are there.");
  return;
elseif (!$controls(player, room) && !(`room:accept(player) ! ANY => 0'))
  player:tell("You can't go there.");
  return;
endif
from = player.location;
move(player, room);
if (valid(from))
  from:announce(player.name + " leaves by no exit that you can see.", {player});
endif
room:announce(player.name + " is here all of a sudden.", {player});
.

// @audit, @audit NAME, @audit NAME from #N
@program $builder:@audit any any any rd
if (player != this)
  return $builder:refuse(verb);
endif
text = dobjstr ? dobjstr | "me";
who = $match:player(text);
if (player.wizard && !valid(who) && text[1] == "#" && tostr(toobj(text)) == text)
  // what somebody owned who is gone
  who = toobj(text);
elseif (!$match:found_player(who, text, player))
  return;
endif
o = prepstr == "from" ? toint(toobj(iobjstr)) | 0;
o = max(o, 0);
n = 0;
end = toint(max_object());
while (o <= end)
  to = min(end, o + 99);
  for x in [toobj(o)..toobj(to)]
    if (valid(x) && x.owner == who)
      n = n + 1;
      exit = $isa(x, $exit);
      place = exit ? x.source | x.location;
      player:tell($string:right(x, 7), "  ", $string:left(x.name, 30), " ", valid(parent(x)) ? "[" + parent(x).name + "] " | "", valid(place) ? (exit ? "from " | "in ") + place.name | "");
    endif
  endfor
  o = to + 1;
  if (ticks_left() < 25000 && o <= end)
    player:tell("That is the list up to #", to, ". For more: @audit ", valid(who) ? who.name | who, " from #", o);
    return;
  endif
endwhile
player:tell(n, n == 1 ? " object." | " objects.");
.

// @set OBJECT.PROPERTY to VALUE: a number, #12, "text" or text; of a programmer also a list, {1, 2}
@program $builder:@set any any any rd wiz
if (player != this || !$player:lets_speak(player))
  return;
endif
set_task_perms(player);
i = index(argstr, " to ");
if (!i)
  player:tell("For example: @set whistle.fixed to 1   or: @set north.leave_msg to climbs the stairs.");
  return;
endif
p = $match:part($string:trim(argstr[1..i - 1]), ".", player);
if (!p)
  if (p == {})
    player:tell("For example: @set whistle.fixed to 1   or: @set north.leave_msg to climbs the stairs.");
  endif
  return;
elseif (p[2] in {"name", "aliases"} && $controls(player, p[1]))
  // @rename looks at names: everybody has to be able to read and to type them
  player:tell("Names are given with @rename.");
  return;
endif
text = $string:trim(argstr[i + 4..$]);
if (tostr(toint(text)) == text)
  value = toint(text);
elseif (text && text[1] == "#" && tostr(toobj(text)) == text)
  value = toobj(text);
elseif (length(text) > 1 && text[1] == "\"" && text[length(text)] == "\"")
  value = text[2..length(text) - 1];
elseif (player.programmer && text && text[1] == "{" && text[length(text)] == "}")
  // a programmer's list, as in a program
  r = eval("me = player; here = me.location; return " + text + ";");
  value = r[1] ? r[2] | text;
else
  value = text;
endif
// what the core's kinds have as a number, an object or a text stays one: their verbs reckon with it
k = p[1] <= $login.core_end ? p[1] | parent(p[1]);
while (valid(k) && !(p[2] in (`properties(k) ! E_PERM => {}')))
  k = parent(k);
endwhile
kind = valid(k) && k <= $login.core_end ? typeof(`k.(p[2]) ! ANY => ""') | typeof(value);
value = kind == STR && typeof(value) != STR ? text | value;
if (kind in {INT, OBJ} && typeof(value) != kind && $controls(player, p[1]))
  player:tell(p[1].name, ".", p[2], kind == INT ? " has to be a number." | " has to be an object, as #12.");
  return;
elseif (kind == LIST && k == p[1] && typeof(value) != LIST && $controls(player, k))
  player:tell(k.name, ".", p[2], " has to be a list. For lines of text: @edit ", k, ".", p[2]);
  return;
endif
try
  p[1].(p[2]) = value;
  player:tell(p[1].name, ".", p[2], " is ", toliteral(value), " now.");
except (E_PROPNF)
  player:tell($string:subject(p[1].name), " has no property ", $string:quoted(p[2]), ". What can be set: help building");
except e (ANY)
  player:tell(this:why(e, p[1]));
endtry
.

// @lock THING with KEY, @unlock THING
@program $builder:@lock any any any rd wiz
if (player != this)
  return $builder:refuse(verb);
elseif (!dobjstr || !(prepstr in {"with", "using"}) || !iobjstr)
  player:tell("For example: @lock box with key   or, for nobody but you: @lock here with me");
  return;
endif
set_task_perms(player);
o = $match:object(dobjstr, player);
key = $match:object(iobjstr, player);
if ($match:found(o, dobjstr, player) && $match:found(key, iobjstr, player))
  name = $string:subject(o.name);
  if (is_player(o))
    player:tell("Players aren't locked.");
    return;
  elseif (!$controls(player, o))
    player:tell($string:subject(o.name), " isn't yours.");
    return;
  elseif (o.f && o <= $login.core_end)
    player:tell(name, " is a kind: all things of it would be locked.");
    return;
  elseif ($isa(key, $room) || $isa(key, $exit))
    player:tell($string:subject(key.name), " is no key: nobody carries it.");
    return;
  endif
  try
    o.key = key;
    o.key_serial = key.serial;
    player:tell(name, key == player ? " opens for you alone." | tostr(" opens for you and for ", is_player(key) ? key.name | "whoever carries " + $string:the(key.name), "."));
  except e (ANY)
    player:tell("That can't be locked: ", e[2], ".");
  endtry
endif
.

@program $builder:@unlock any any any rd wiz
if (player != this)
  return $builder:refuse(verb);
elseif (!argstr)
  player:tell("For example: @unlock box");
  return;
endif
set_task_perms(player);
o = $match:object(argstr, player);
if ($match:found(o, argstr, player))
  if (is_player(o))
    player:tell("Players aren't locked.");
    return;
  elseif (!$controls(player, o))
    player:tell($string:subject(o.name), " isn't yours.");
    return;
  endif
  try
    o.key = #-1;
    player:tell($string:subject(o.name), " is unlocked.");
  except e (ANY)
    player:tell("That can't be unlocked: ", e[2], ".");
  endtry
endif
.

// @move THING to PLACE
@program $builder:@move any any any rd wiz
if (player != this)
  return $builder:refuse(verb);
elseif (!dobjstr || prepstr != "to" || !iobjstr)
  player:tell("For example: @move box to me   or: @move #12 to here");
  return;
endif
set_task_perms(player);
o = $match:object(dobjstr, player);
to = $match:object(iobjstr, player);
if (!$match:found(o, dobjstr, player) || !$match:found(to, iobjstr, player))
  return;
elseif (is_player(o) && !player.wizard)
  player:tell("Players move themselves.");
  return;
elseif ($isa(o, $vehicle) && !$isa(to, $room))
  player:tell("A vehicle has to be in a room: its people could not leave it.");
  return;
elseif (!$player:lets_speak(player))
  return;
endif
try
  move(o, to);
  player:tell($string:subject(o.name), " is in ", to == player ? "your hands" | (is_player(to) ? to.name + "'s hands" | $string:the(to.name)), " now.");
  if (is_player(to) && to != player && o.location == to)
    $builder:say_moved(o, to);
  endif
except e (ANY)
  player:tell(this:why(e, o, "moved"));
endtry
.

// Tells WHO that @move put O into his hands. No verb of his is called, which could break the command.
@program $builder:say_moved this none this rxd wiz
{o, who} = args;
by = callers()[1];
if (by[2] != "@move" || by[4] != $builder)
  raise(E_PERM);
elseif (!(player in `who.gags ! ANY => {}'))
  notify(who, tostr(player.name, " puts ", $string:the(o.name), " into your hands."));
endif
.

// Where O goes that is sent away from HERE: to no place whose verbs could keep it. HERE if there is none.
@program $builder:place_for this none this rxd wiz
{o, here} = args;
dest = is_player(o) ? $login.start | #-1;
if (is_player(o) && $isa(home = `o.home ! ANY => #-1', $room) && home != here && $recycler:is_safe(home))
  return home;
elseif ($isa(o, $vehicle))
  // in somebody's hands its people could not leave it
  return $login.start;
elseif (!is_player(o) && $isa(o.owner, $player) && $recycler:is_safe(o.owner))
  return o.owner;
endif
return dest;
.

// @eject NAME: out of a room of one's own; @eject EXIT: an exit that somebody else made there; @eject things of NAME: all his
// things that are there
@program $builder:@eject any any any rd wiz
if (player != this)
  return $builder:refuse(verb);
elseif (!argstr)
  player:tell("For example: @eject NAME   or: @eject things of NAME   (out of a room of yours)");
  return;
endif
here = player.location;
p = $string:split(args, "of");
if (!valid(here) || !$controls(player, here))
  player:tell("This place isn't yours.");
elseif (p && p[1] == "things" && !valid(dobj))
  who = $match:player(p[2]);
  if (!$match:found_player(who, p[2], player))
    return;
  endif
  n = 0;
  for o in (here.contents)
    if (o.owner == who && !is_player(o) && (dest = this:place_for(o, here)) != here)
      move(o, dest);
      n = n + (o.location != here);
    endif
    if (ticks_left() < 10000)
      player:tell("There may be more: type it again.");
      break;
    endif
  endfor
  player:tell(n, n == 1 ? " thing" | " things", " of ", who.name, n == 1 ? " is" | " are", " gone from here.");
  if (n)
    here:announce(tostr(player.name, " sends away what ", who.name, " left here."), {player, who});
    if (who != player)
      notify(who, tostr(player.name, " sends away what you left in ", here.name, "."));
    endif
  endif
elseif (dobj == #-3 && $isa(here, $room) && valid(e = $match:among($string:unquoted(argstr), here.exits)))
  // it is its owner's still, who can recycle it
  if (e.owner == player)
    player:tell("That exit is yours: @recycle ", argstr);
  else
    here.exits = setremove(here.exits, e);
    player:tell("The exit ", e.name, " is gone from here.");
  endif
elseif (!$match:found(dobj, dobjstr, player))
  return;
elseif (dobj.location != here || dobj == player)
  player:tell("Eject whom, or what?");
elseif (dobj.wizard)
  player:tell("Wizards can't be sent away.");
else
  name = $string:subject(dobj.name);
  dest = this:place_for(dobj, here);
  if (dest == here)
    player:tell("There is nowhere to send it.");
    return;
  endif
  notify(dobj, tostr(player.name, " sends you away."));
  move(dobj, dest);
  player:tell(name, " is gone from here.");
  here:announce(tostr(player.name, " sends ", $string:the(dobj.name), " away."), {player, dobj});
endif
.
