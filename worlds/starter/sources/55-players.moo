// Players: what everybody can do, guests too.

@property $player.password - wiz = 0
// {how many wrong passwords since the last right one, when the last of them was typed}
@property $player.wrong - wiz = {}
@property $player.ownership_quota r wiz = 20
// {when the day began, how many things were made since}, and how many may be made in a day
@property $player.made r wiz = {0, 0}
@property $player.most_in_day r wiz = 60
@property $player.renamed r wiz = {0, 0}
@property $player.home r wiz = #2
@property $player.last_place r wiz = #-1
@property $player.last_connect r wiz = 0
@property $player.last_disconnect r wiz = 0
@property $player.first_connect r wiz = 0
@property $player.lesson r = 1
@property $player.gender rc = "they"
// how long a line and a page may be; what is left of the last page
@property $player.linelength r wiz = 78
@property $player.pagelength r wiz = 0
@property $player.rest - wiz = {}
// whom one gags and who gags one; what is refused, as {"pages", who or #-1}; since when one is muted, and for how many seconds
@property $player.gags r wiz = {}
@property $player.gagged_by r wiz = {}
@property $player.refusals r wiz = {}
@property $player.muted r wiz = {0, 0}
// The kinds of players of the core, of which no more has to be asked.
@property $player.kinds r wiz = {}
;$player.kinds = {$builder, $prog, $wiz, $guest};

// Drops what is caused by a player whom this one gags, or who is muted. A line that begins with #$ would be a command to
// some clients (#$# edit): it gets a blank before it, as nobody but the world itself sends those.
@program $player:"tell tell_lines" this none this rxd wiz
by = 0;
if (player == this)
  // for most lines, which the core sends to who has typed the command, no other frames have to be looked at
  if (caller_perms() != this && caller_perms() != $keeper)
    by = $player:maker_of(callers(), this);
  endif
else
  if (valid(player) && (player in this.gags || ((!(parent(player) in $player.kinds) || player.muted[2]) && $player:muted_for(player))))
    return;
  endif
  // look_self, and move of an exit, show what a thing's owner has written
  if (caller_perms() != $keeper || callers()[1][2] in {"look_self", "move"})
    by = $player:maker_of(callers(), this);
  endif
endif
if (verb == "tell")
  text = tostr(@args);
  if (by)
    text = $player:signed(text, by);
  endif
  notify(this, index(text, "#$") == 1 ? " " + text | text);
  return;
endif
lines = args[1];
if (this.pagelength && length(lines) > this.pagelength)
  n = length(lines);
  this.rest = lines[this.pagelength + 1..min(n, 500)];
  lines = {@lines[1..this.pagelength], tostr("(", length(this.rest), length(this.rest) == 1 ? " more line" | " more lines", ": type  @more)")};
endif
narrow = this.linelength < 78;
// `index` searches the whole line: what begins with #$ is less than #%, and most lines are not
for l in (lines)
  if (typeof(l) != STR)
    l = tostr(l);
  endif
  if (by)
    l = $player:signed(l, by);
  endif
  if (narrow && length(l) > this.linelength)
    for part in ($string:wrap(l, this.linelength))
      notify(this, part < "#%" && index(part, "#$") == 1 ? " " + part | part);
    endfor
  else
    notify(this, l < "#%" && index(l, "#$") == 1 ? " " + l | l);
  endif
endfor
.

// For how many seconds more nobody hears WHO; -1 if that has no end. A player who has made himself another kind of thing has lost
// his mute and the list of those who gag him, so nobody hears him until a wizard gives him back a kind of players.
@program $player:muted_for this none this rxd wiz
{who} = args;
kind = parent(who);
if (!(valid(kind) && valid(kind.owner) && kind.owner.wizard && $isa(kind, $player)))
  return -1;
endif
{at, span} = who.muted;
since = time() - at;
return span && since >= 0 && since < span ? span - since | 0;
.

// {who has made the program that sends a line to WHOM}: the first of FRAMES with the rights of anybody but the core, a wizard and
// WHOM; or {}. A command of the core with the rights of who types it is the core's.
@program $player:maker_of this none this rxd wiz
{frames, ?whom = $keeper} = args;
for f in (frames)
  by = f[3];
  if (!(by in {$keeper, whom} || (valid(by) && by.wizard) || (by == f[5] && f[4] != #-1 && f[4] <= $login.core_end)))
    return {by};
  endif
endfor
return {};
.

// TEXT as a program of BY[1] sends it. If it begins with the name of another player, or with that of who typed the command and has
// speech in it, whose program it is comes first. A name that looks like a player's counts as his, and blanks before it don't count.
@program $player:signed this none this rxd
{text, by} = args;
by = by[1];
from = i = text && text[1] == " " ? $string:past_blanks(text, 1) | 1;
last = min(from + 59, length(text));
while (i <= last && index("abcdefghijklmnopqrstuvwxyz0123456789-_", text[i]))
  i = i + 1;
endwhile
word = text[from..i - 1];
if (!word || (valid(by) && word == by.name) || (valid(player) && word == player.name && !index(text, "\"")))
  return text;
endif
for look in ($match:looks(word))
  if (index($match.alike, "|" + look + "|"))
    return tostr(valid(by) ? by.name + "'s program: " | "A program: ", text);
  endif
endfor
return text;
.

@program $player:@more none none none rd wiz
if (player == this)
  rest = this.rest;
  this.rest = {};
  this:tell_lines(rest ? rest | {"There is no more."});
endif
.

// @linelength 60, @pagelength 20: how texts are broken for this player; 0 for not at all
@program $player:"@linelength @pagelength" any any any rd wiz
if (player != this)
  return;
endif
argstr = $string:trim(argstr);
n = toint(argstr);
if (argstr && (tostr(n) != argstr || n < 0 || n > 8000 || (n && n < (verb == "@linelength" ? 20 | 5))))
  player:tell("For example: @linelength 60   or: @pagelength 20   (0: not at all)");
  return;
elseif (argstr && verb == "@linelength")
  this.linelength = n ? n | 20000;
elseif (argstr)
  this.pagelength = n;
endif
n = verb == "@linelength" ? this.linelength | this.pagelength;
if (verb == "@linelength")
  player:tell(n == 20000 ? "Your lines aren't broken." | tostr("Lines are broken at ", n, " characters."));
else
  player:tell(n ? tostr("Pages end after ", n, " lines.") | "Your texts come whole, however long they are.");
endif
.

// May WHO speak, to WHOM (or to all)? Else WHO reads why not. KIND is what WHOM may refuse. The core asks $player itself: a
// verb of this name on a programmer's own character would take back no mute.
@program $player:lets_speak this none this rxd wiz
{who, ?whom = #-1, ?kind = ""} = args;
if (whom == #-1 && parent(who) in $player.kinds && !who.muted[2])
  return 1;
endif
// only of players: else a thing of a programmer's could have any words as its name and its refusals
refused = valid(whom) && is_player(whom) ? `whom.refusals ! ANY => {}' | {};
if (left = $player:muted_for(who))
  notify(who, left < 0 ? "Nobody hears you: you are no kind of player any more. A wizard can mend that." | tostr("You are muted, for ", $time:span(left), " more."));
elseif (valid(whom) && whom in `who.gagged_by ! ANY => {}')
  notify(who, whom.name + " hears nothing of you.");
elseif ({kind, #-1} in refused || {kind, who} in refused)
  notify(who, tostr(whom.name, " refuses ", kind, {kind, #-1} in refused ? "." | " of yours."));
else
  return 1;
endif
return 0;
.

@program $player:may_speak this none this rxd
return $player:lets_speak(this, @args);
.

// The server calls it in `recycle`, the function: no player takes himself away by mistake. Wizards have @toad.
@program $player:recycle this none this rxd wiz
if (is_player(this) && !caller_perms().wizard)
  raise(E_PERM, "players aren't recycled");
endif
.

// Things come into somebody's hands by `give`, @move and programs: not from one who is gagged, or whose things are refused.
@program $player:accept this none this rxd
{what} = args;
if (is_player(what) || length(this.contents) >= 50)
  return 0;
elseif (player in {this, #-1} || what.owner == this || player.wizard)
  return 1;
endif
return !(player in this.gags || {"things", #-1} in this.refusals || {"things", player} in this.refusals);
.

@program $player:look_self this none this rxd
{who} = args;
lines = $string:lines(`this.description ! ANY => ""');
g = `this.gender ! ANY => ""';
g = g in {"she", "he", "it", "they"} ? g | "they";
who:tell(this.name, " (", g, ")");
who:tell_lines(lines ? lines | {"Nobody special, so far."});
if (!is_player(this))
  return;
elseif (!(this in connected_players()))
  who:tell("Asleep, somewhere.");
elseif (idle_seconds(this) >= 300)
  who:tell("Lost in thought for ", $time:span(idle_seconds(this)), ".");
endif
names = $string:names(this.contents);
if (names)
  who:tell_lines($string:flow("Carries:", names));
endif
.

// Called when it has connected; args[1] is true for one that is new.
@program $player:confunc this none this rxd wiz
if (caller != #0 && caller != this)
  raise(E_PERM);
endif
this.last_connect = time();
if (valid(this.location))
  $isa(this.location, $root) && this.location:look_self(this);
else
  for place in ({this.last_place, this.home, $login.start})
    if ($isa(place, $room) && `place:accept(this) ! ANY => 0')
      move(this, place);
      place:announce(this.name + " steps out of the mist.", {this});
      break;
    endif
  endfor
endif
if (args[1])
  notify(this, "");
  notify(this, "Welcome, " + this.name + "! If you are new to worlds like this, find the schoolroom:");
  notify(this, "type  north,  then  east.  Or type  help.");
elseif ($news.changed > this.last_disconnect)
  notify(this, "There is news: type  news.");
endif
n = 0;
for l in (this.letters)
  n = n + !l[5];
endfor
if (n)
  notify(this, tostr("You have ", n, n == 1 ? " letter that isn't read" | " letters that aren't read", ": type  @mail."));
endif
if (this.editing && !this.editing[1])
  // the lines that were to be dropped
  this.editing = {};
elseif (this.editing)
  // what a client sent by @write is cut off: from here on the dots are commands again
  this.editing[6] = 0;
  notify(this, tostr("You are still writing ", $editor:title(this.editing), ". A line of one dot ends, .q drops it, .h shows more."));
endif
if (this == #3 && (first = $login:unclaimed()))
  notify(this, "");
  notify(this, typeof(first) == STR ? "!! Your password is one that the world has made, from the moment of its start." | "!! Your password is the first one, and the server's log has it.");
  notify(this, "!! Type  @password NEW  now. (It will be readable in the world's file.)");
endif
.

// Called when it has disconnected: it leaves the room, and comes back to it.
@program $player:disfunc this none this rxd wiz
if (caller != #0 && caller != this)
  raise(E_PERM);
endif
this.last_disconnect = time();
place = this.location;
if (valid(place))
  this.last_place = place;
  // first the body goes: what verbs of the room do can't keep it there
  move(this, #-1);
  $isa(place, $root) && place:announce(this.name + " fades into the mist.", {this});
endif
.

@program $player:"l*ook" any any any rd
here = player.location;
if (!argstr || argstr in {"here", "around"})
  if (!valid(here))
    player:tell("You are nowhere. Type home.");
    return;
  elseif (parent(here) != $room && !$isa(here, $root))
    // a programmer has taken the kind from his room
    player:tell(here.name, " isn't a room any more. Type home.");
    return;
  endif
  here:look_self(player);
  here:noticed(player, "look", here);
  return;
endif
seen = 1;
if (prepstr == "at" && !dobjstr)
  text = iobjstr;
  o = iobj;
elseif (prepstr in {"in", "inside", "into"} && !dobjstr)
  o = valid(iobj) ? iobj | $match:object(iobjstr, player);
  if ($match:found(o, iobjstr, player))
    $isa(o, $root) ? o:look_inside(player) | player:tell("You can't look into ", $string:the(o.name), ".");
  endif
  return;
elseif (prepstr in {"in", "on", "from"} && dobjstr)
  text = dobjstr;
  open = (`iobj.opened ! ANY => 0') || iobj in {player, here};
  o = open && valid(iobj) ? $match:among(text, iobj.contents) | #-3;
  // a thing may be called `man in black`
  o = o == #-3 ? $match:object(argstr, player) | o;
  if (o == #-3 && !$match:found(iobj, iobjstr, player))
    return;
  elseif (o == #-3)
    name = $string:the(iobj.name);
    player:tell(open || !$isa(iobj, $container) ? tostr("There is no ", $string:quoted(text), " ", prepstr, " ", name) | $string:capital(name) + " is closed", ".");
    return;
  endif
else
  text = prepstr ? argstr | dobjstr;
  o = dobj;
  seen = !prepstr;
endif
if (!valid(o))
  o = o == #-2 ? o | $match:object(text, player, seen);
endif
if ($match:found(o, text, player))
  // a programmer can take the kind from a thing
  $isa(o, $root) ? o:look_self(player) | player:tell("You see nothing special about ", $string:the(o.name), ".");
  if ($isa(here, $root))
    here:noticed(player, "look", o);
  endif
endif
.

@program $player:"i inv*entory" none none none rd
names = $string:names(player.contents);
player:tell_lines(names ? $string:flow("You carry:", names) | {"You carry nothing."});
.

// @who, or @who NAME NAME
@program $player:"@who who" any any any rd
names = args[1..min(20, length(args))];
people = {};
for n in (names)
  o = $match:player(n);
  people = $match:found_player(o, n, player) ? setadd(people, o) | people;
endfor
if (people || !names)
  $login:who(player, people);
endif
.

@program $player:eval any any any rd
player:tell("You are not a programmer. (A wizard makes programmers: help programming)");
.

@program $player:"help @help ?" any any any rd
$help:show(player, argstr);
.

@program $player:"news @news" none none none rd
$news:show(player);
.

// `page` and `whisper` are wizards' verbs so that they can tell somebody else without a verb of his.
@program $player:"page" any any any rd wiz
i = index(argstr, " ");
if (player != this)
  return;
elseif (!i)
  player:tell("Page whom, and what? For example: page ", player.name, " hello");
  return;
endif
text = $string:trim(argstr[i..$]);
o = $match:player(args[1]);
if (!text)
  player:tell("Page whom, and what? For example: page ", player.name, " hello");
  return;
elseif (!$match:found_player(o, args[1], player) || !$player:lets_speak(player, o, "pages"))
  return;
elseif ((idle = `idle_seconds(o) ! E_INVARG => -1') < 0)
  player:tell(o.name, " isn't connected.", $isa(player, $builder) && $isa(o, $builder) ? tostr(" To leave a letter:  @send ", o.name, " ", text[1..min(30, length(text))], length(text) > 30 ? ".." | "") | "");
else
  here = player.location;
  notify(o, tostr(player.name, " pages you", valid(here) ? " from " + here.name | "", ": ", text));
  player:tell("You page ", o.name, ".");
  if (idle >= 300)
    player:tell(o.name, " has been idle for ", $time:span(idle), ".");
  endif
endif
.

// whisper TEXT to NAME, or whisper NAME TEXT
@program $player:"wh*isper" any any any rd wiz
if (player != this)
  return;
endif
here = player.location;
people = {};
for o in (valid(here) ? here.contents | {})
  if (is_player(o))
    people = {@people, o};
  endif
endfor
n = length(args);
if (n >= 3 && args[n - 1] == "to")
  name = args[n];
  text = $string:join(args[1..n - 2]);
elseif (n >= 2)
  name = args[1];
  text = $string:join(args[2..n]);
else
  player:tell("For example: whisper \"the key is under the mat\" to ", player.name);
  return;
endif
o = name == "me" ? player | $match:among(name, people);
if (o == #-3 && (found = $match:player(name)) in people)
  o = found;
endif
if (o == #-3 && valid(here) && $match:player(name) == #-3 && $match:among(name, {@player.contents, @here.contents}) != #-3)
  player:tell("You can whisper only to players.");
elseif ($match:found(o, name, player) && $player:lets_speak(player, o, "whispers"))
  notify(o, tostr(player.name, " whispers to you: ", text));
  player:tell("You whisper to ", o.name, ".");
endif
.

// @gag NAME: nothing is heard of what NAME does; @ungag NAME
@program $player:"@gag @ungag" any any any rd wiz
if (player != this)
  return;
elseif (!argstr)
  names = {};
  for o in (this.gags)
    names = valid(o) ? {@names, o.name} | names;
  endfor
  player:tell_lines($string:wrap(names ? "You gag " + $string:english(names) + "." | "You gag nobody. For example: @gag NAME"));
  return;
endif
o = $match:player(argstr);
if (!$match:found_player(o, argstr, player))
  return;
elseif (verb == "@ungag")
  player:tell(o in this.gags ? "You hear " + o.name + " again." | "You don't gag " + o.name + ".");
  this.gags = setremove(this.gags, o);
  `o.gagged_by = setremove(o.gagged_by, this) ! E_PROPNF';
elseif (o == player)
  player:tell("You can't gag yourself.");
elseif (length(this.gags) >= 50)
  player:tell("You gag fifty already. @ungag somebody first.");
else
  this.gags = setadd(this.gags, o);
  // who has made himself another kind of thing has no such list, and nobody hears him
  `o.gagged_by = setadd(o.gagged_by, this) ! E_PROPNF';
  player:tell("You hear no more of ", o.name, ". (@ungag ", o.name, ")");
endif
.

// @refuse pages, @refuse pages from NAME; @unrefuse the same
@program $player:"@refuse @unrefuse" any any any rd wiz
if (player != this)
  return;
endif
p = $string:split(args, "from");
word = p ? p[1] | $string:trim(argstr);
kind = "";
for k in ({"pages", "whispers", "letters", "things", "visits"})
  if (word && index(k, word) == 1)
    kind = k;
  endif
endfor
if (!argstr)
  lines = {};
  for r in (this.refusals)
    if (r[2] == #-1 || valid(r[2]))
      lines = {@lines, tostr("You refuse ", r[1], r[2] == #-1 ? "." | " from " + r[2].name + ".")};
    endif
  endfor
  player:tell_lines(lines ? lines | {"You refuse nothing. For example: @refuse pages   or: @refuse letters from NAME"});
  return;
elseif (!kind)
  player:tell("You can refuse pages, whispers, letters, things and visits. For example: @refuse pages from NAME");
  return;
endif
o = p ? $match:player(p[2]) | #-1;
if (p && !$match:found_player(o, p[2], player))
  return;
endif
what = tostr(kind, p ? " from " + o.name | "");
if (verb == "@unrefuse")
  player:tell({kind, o} in this.refusals ? "You take " + what + " again." | "You don't refuse " + what + ".");
  this.refusals = setremove(this.refusals, {kind, o});
elseif (length(this.refusals) >= 50)
  player:tell("You refuse fifty things already. @unrefuse something first.");
else
  this.refusals = setadd(this.refusals, {kind, o});
  player:tell("You refuse ", what, ". (@unrefuse ", what, ")");
endif
.

@program $player:"@quit quit" none none none rd wiz
if (player == this)
  notify(player, "Goodbye.");
  boot_player(player);
endif
.

@program $player:"@desc*ribe" any any any rd wiz
if (player != this)
  return;
endif
set_task_perms(player);
p = $string:split(args, "as");
// an empty text is typed as ""
if (!p || !p[1] || ("as" in args) == length(args))
  player:tell("For example: @describe me as A quiet person with a wet umbrella.");
  return;
endif
o = $match:object(p[1], player);
if (!$match:found(o, p[1], player))
  return;
elseif (!$controls(player, o))
  player:tell($string:subject(o.name), " isn't yours.");
  return;
elseif (!$player:lets_speak(player))
  return;
endif
// the words have lost their quotes and backslashes, the line has not
i = index(argstr, " as ");
text = i ? $string:unquoted($string:trim(argstr[i + 4..$])) | p[2];
try
  o.description = text;
  player:tell(o == player ? "You are" | $string:subject(o.name) + " is", " described.");
except e (ANY)
  player:tell("That can't be done: ", e[2], ".");
  return;
endtry
if ($isa(player.location, $root))
  player.location:noticed(player, "describe", o);
endif
.

@program $player:@gender any any any rd wiz
if (player != this)
  return;
endif
set_task_perms(player);
if (i = $string:trim(argstr) in {"she", "he", "it", "they", "female", "male", "neuter", "plural"})
  player.gender = {"she", "he", "it", "they"}[(i - 1) % 4 + 1];
  player:tell("You are spoken of as \"", player.gender, "\".");
else
  player:tell("Type  @gender she,  he,  it  or  they. You are \"", player.gender, "\".");
endif
.

@program $player:home none none none rd wiz
if (player != this)
  return;
endif
here = player.location;
start = $login.start;
// from nowhere the way leads to the first room, whatever became of the home
dest = valid(here) && $isa(player.home, $room) ? player.home | start;
if (here == dest)
  player:tell("You are at home.");
  return;
endif
words = {" goes home.", " comes home."};
// one's own room isn't asked
if (!$controls(player, dest) && !`dest:accept(player) ! ANY => 0')
  player:tell(dest.name, " doesn't let you in.");
  if (dest == start || here == start || !(`start:accept(player) ! ANY => 0'))
    return;
  endif
  dest = start;
  words = {" leaves.", " arrives."};
endif
// first the move: what a room does with `announce` keeps nobody in it
move(player, dest);
if ($isa(here, $root))
  here:announce(player.name + words[1], {player});
endif
dest:announce(player.name + words[2], {player});
.

// Who hears what is said here: those who are connected and don't gag who asks, and programs of others, if the room has any.
@program $player:@sweep none none none rd
here = player.location;
if (!valid(here))
  player:tell("You are nowhere. Type home.");
  return;
endif
busy = connected_players();
people = {};
for o in (here.contents)
  people = o != player && is_player(o) && o in busy && !(o in player.gagged_by) ? {@people, o} | people;
endfor
player:tell_lines($string:flow("Who hears you here:", people ? $string:names(people) | {"nobody"}));
if (others = $recycler:stranger(here))
  player:tell("The room has programs of ", valid(others[1]) ? others[1].name | "others", ", which may hear you too.");
endif
.

// The exits of the room, and where they lead. No verb of an exit is called: one could use up the ticks.
@program $player:"@ways ways exits" none none none rd
here = player.location;
lines = {};
for e in ($isa(here, $room) ? here.exits[1..min(40, length(here.exits))] | {})
  if ($isa(e, $exit))
    names = {e.name, @(typeof(more = `e.aliases ! ANY => {}') == LIST ? more[1..min(5, length(more))] | {})};
    lines = {@lines, tostr("  ", $string:left($string:join(names, ", "), 24), " to ", valid(e.dest) ? e.dest.name | "nowhere", $exit:opens(e, player) ? "" | " (locked)")};
  endif
endfor
player:tell_lines(lines ? lines | {"There are no exits."});
.

// @join NAME: to where NAME is, unless that is locked or NAME refuses visits
@program $player:@join any any any rd wiz
if (player != this)
  return;
endif
o = $match:player(argstr);
if (!$match:found_player(o, argstr, player))
  return;
elseif (!(o in connected_players()) || !valid(o.location))
  player:tell(o.name, " isn't here, nor anywhere.");
elseif (o.location == player.location)
  player:tell("You are together.");
elseif (!$player:lets_speak(player, o, "visits"))
  return;
elseif (!$isa(o.location, $room) || !(`o.location:accept(player) ! ANY => 0'))
  player:tell("You can't go where ", o.name, " is.");
else
  from = player.location;
  place = o.location;
  move(player, place);
  if (valid(from))
    from:announce(tostr(player.name, " goes to join ", o.name, "."), {player});
  endif
  place:announce(tostr(player.name, " comes to join ", o.name, "."), {player});
endif
.

@program $player:@sethome none none none rd wiz
if (player != this)
  return;
endif
here = player.location;
if (!$isa(here, $room) || !($controls(player, here) || `here.free_home ! ANY => 0'))
  player:tell("You can't live here. A room of your own is a home: help @dig.");
else
  player.home = here;
  player:tell("Your home is ", here.name, ".");
endif
.

@program $player:@password any any any rd wiz
if (player != this || !$isa(player, $builder))
  player:tell("Guests have no password.");
  return;
endif
first = player == #3 && $login.first_password;
if (length(args) != (first ? 1 | 2))
  player:tell(first ? "Type  @password NEW." | "Type  @password OLD NEW.");
elseif (!first && !equal(player.password, args[1]))
  player:tell("That isn't your old password.");
elseif (fault = $login:password_fault(args[length(args)]))
  player:tell(fault);
else
  player.password = args[length(args)];
  if (first)
    $login.first_password = 0;
  endif
  player:tell("Your password is changed. It is readable in the world's file: use it nowhere else.");
endif
.

@program $player:"@exam*ine examine exam" any any any rd
o = valid(dobj) || dobj == #-2 ? dobj | $match:object(argstr, player, argstr == dobjstr);
if (!$match:found(o, argstr, player))
  return;
endif
owner = o.owner;
player:tell(o.name, " (", o, "), owned by ", valid(owner) ? owner.name | "nobody", " (", owner, ")");
names = `o.aliases ! ANY => {}';
if (names && typeof(names) == LIST)
  player:tell_lines($string:flow("Also called:", names[1..min(20, length(names))]));
endif
player:tell("A kind of: ", valid(parent(o)) ? tostr(parent(o).name, " (", parent(o), ")") | "nothing");
player:tell_lines($string:lines(`o.description ! ANY => ""'));
if (o.contents && $controls(player, o))
  inside = {};
  for c in (o.contents[1..min(50, length(o.contents))])
    inside = {@inside, tostr(c.name, " (", c, ")")};
  endfor
  player:tell_lines($string:flow("Contents:", inside));
endif
lines = {};
k = o;
while (valid(k) && k != #1 && !(k in {$player, $builder, $prog, $wiz, $guest, $room}) && length(lines) < 40)
  // what stays where it is isn't taken, dropped or given
  most = k == $thing && `o.fixed ! ANY => 0' && !$controls(player, o) ? 0 | 100;
  for i in [1..min(most, length(`verbs(k) ! E_PERM => {}'))]
    a = `verb_args(k, i) ! E_PERM => {}';
    if (a && "this" in {a[1], a[3]} && a != {"this", "none", "this"})
      w = verb_info(k, i)[3];
      w = strsub({@$string:explode(w[1..min(80, length(w))]), "?"}[1], "*", "");
      d = a[1] == "this" ? " " + o.name | (a[1] == "any" ? " ANYTHING" | "");
      d2 = a[3] == "this" ? " " + o.name | (a[3] == "any" ? " ANYTHING" | "");
      forms = $string:explode(a[2], "/");
      for p in ({"to", "on", "from"})
        forms = p in forms ? {p} | forms;
      endfor
      q = a[2] in {"none", "any"} ? "" | " " + forms[1];
      lines = {@lines, tostr("  ", w, d, q, d2)};
    endif
  endfor
  k = parent(k);
endwhile
if (lines)
  player:tell("Commands:");
  player:tell_lines(lines);
endif
.

// post TEXT: writes on the board of the room; post alone opens the editor
@program $player:post any any any rd
for o in (valid(player.location) ? player.location.contents | {})
  if (!is_player(o) && $isa(o, $board))
    if (!argstr && $isa(player, $builder) && $player:lets_speak(player))
      return $editor:start(player, "board", o, "", {});
    endif
    return o:add(argstr);
  endif
endfor
player:tell("There is no notice board here.");
.

// Guests: they lend a body, and leave it as they found it.

@program $guest:disfunc this none this rxd wiz
if (caller != #0)
  raise(E_PERM);
endif
pass();
this:restore();
.

@program $guest:confunc this none this rxd wiz
if (caller != #0)
  raise(E_PERM);
endif
// once more: a stop of the server, or a verb of a room, may have kept the last guest's body as it was
this:restore();
pass(0);
notify(this, tostr("You are a guest, called ", this.name, ". Type  help  to see what you can do."));
.

// As it was lent: at home in the first room, undescribed, with empty hands.
@program $guest:restore this none this rxd wiz
if (caller != this)
  raise(E_PERM);
endif
place = $isa(this.last_place, $room) && this.last_place.owner == $keeper ? this.last_place | $login.start;
this.home = $login.start;
this.last_place = #-1;
this.lesson = 1;
clear_property(this, "description");
clear_property(this, "gender");
// who was gagged, or gagged others, was another guest
for o in (this.gags)
  `o.gagged_by = setremove(o.gagged_by, this) ! ANY';
endfor
for o in (this.gagged_by)
  `o.gags = setremove(o.gags, this) ! ANY';
endfor
this.gags = this.gagged_by = this.refusals = this.editing = this.rest = {};
this.linelength = $player.linelength;
this.pagelength = 0;
if (valid(this.location))
  `move(this, #-1) ! ANY';
endif
for o in (this.contents)
  move(o, place);
endfor
.
