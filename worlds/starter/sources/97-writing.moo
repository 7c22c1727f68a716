// Writing of several lines: a small editor of lines, letters, and notes.

// {kind, object, name, lines, where the next line goes, taken as they are, the lines as they were}
@property $player.editing - wiz = {}
@property $player.local_editing r wiz = 0

@text $editor.help_lines
What you type is added as a line. A line of one dot ends, and keeps what is written.
  .l        shows the lines, .l 3 or .l 3 8 some of them
  .i 3      further lines go before line 3; .i alone: to the end
  .d 3      takes line 3 away, .d 3 8 several
  .r 3 TEXT puts TEXT in the place of line 3
  .s 3 OLD/NEW  changes OLD into NEW in line 3
  .q        drops what is written; .h shows this
  ..TEXT    a line that begins with a dot; a backslash alone: an empty line
.

// WHO begins to write: what is written goes to WHAT as KIND and NAME say.
@program $editor:start this none this rxd wiz
{who, kind, what, name, lines, ?raw = 0} = args;
if (!(caller_perms() in {who, $keeper} || caller_perms().wizard))
  raise(E_PERM);
elseif (!(kind in {"verb", "text", "letter", "list", "board"}) || (kind == "board" && !$isa(what, $board)))
  raise(E_INVARG);
endif
who.editing = {kind, what, name, lines, length(lines) + 1, raw, lines};
if (!raw)
  n = length(lines);
  who:tell("You are writing ", this:title(who.editing), n ? tostr(", which has ", n, n == 1 ? " line" | " lines") | "", ". A line of one dot ends; .h shows how to change lines, .q drops it.");
endif
.

@program $editor:title this none this rxd
{kind, what, name, @rest} = args[1];
if (!valid(what))
  return kind == "letter" ? "a letter to somebody who is no more" | "something for what is gone";
elseif (kind == "letter")
  return "a letter to " + what.name;
elseif (kind == "list")
  return "a letter to the list " + name;
elseif (kind == "board")
  return "a note for " + $string:the(what.name);
endif
return tostr(kind == "verb" ? "the verb " | "the text ", what, kind == "verb" ? ":" | ".", name);
.

// Sends the lines to a client that edits by itself; what it sends back begins with UPLOAD.
@program $editor:send_local this none this rxd wiz
{who, name, upload, lines} = args;
if (caller_perms() != who && !caller_perms().wizard)
  raise(E_PERM);
endif
// a name, which its maker chooses, can't say what the client is to send
mark = " upload:";
notify(who, tostr("#$# edit name: ", strsub(name, mark, " upload"), mark, " ", strsub(upload, mark, " upload")));
for l in (lines)
  notify(who, l && l[1] == "." ? "." + l | l);
endfor
notify(who, ".");
.

// @write was refused: what WHO's client sends after it isn't taken for commands, up to the dot.
@program $editor:drop this none this rxd wiz
{who} = args;
if (caller_perms() != who && !caller_perms().wizard)
  raise(E_PERM);
elseif (!who.editing)
  who.editing = {"", #-1, "", {}, 1, 1};
  who:tell("The lines that follow are dropped, up to a line of one dot.");
endif
.

// Takes a line of somebody who writes; true if no command is to run for it.
@program $editor:line this none this rxd wiz
if (caller != #0)
  raise(E_PERM);
endif
{who, text} = args;
{kind, what, name, lines, at, raw, @rest} = who.editing;
if (!kind)
  if (text == ".")
    who.editing = {};
    who:tell("They are dropped.");
  endif
elseif (text == ".")
  this:finish(who);
elseif (raw || text[1] != ".")
  if (!raw && text in {"@quit", "quit"})
    return 0;
  endif
  this:add(who, raw && index(text, "..") == 1 ? text[2..$] | (text == "\\" ? "" | text));
elseif (text[1..2] == "..")
  this:add(who, text[2..$]);
else
  this:change(who, text[2], $string:trim(text[3..$]));
endif
return 1;
.

@program $editor:add this none this rxd wiz
if (caller != this)
  raise(E_PERM);
endif
{who, text} = args;
{kind, what, name, lines, at, raw, @rest} = who.editing;
most = {2000, 60, 60, 12, 200}[kind in {"verb", "letter", "list", "board"} || 5];
if (length(lines) >= most)
  who:tell("That is as long as it may be: ", most, " lines.");
elseif (kind != "verb" && length(text) > 1000)
  who:tell("That line is too long: 1,000 characters at most.");
else
  who.editing[4] = listinsert(lines, text, at);
  who.editing[5] = at + 1;
endif
.

// The commands that begin with a dot.
@program $editor:change this none this rxd wiz
if (caller != this)
  raise(E_PERM);
endif
{who, word, rest} = args;
{kind, what, name, lines, at, raw, @more} = who.editing;
n = length(lines);
words = $string:explode(rest);
from = words ? toint(words[1]) | 0;
to = length(words) > 1 && toint(words[2]) ? min(toint(words[2]), n) | from;
good = from >= 1 && from <= n && to >= from;
if (word == "h")
  who:tell_lines(this.help_lines);
elseif (word == "q")
  who.editing = {};
  who:tell("It is dropped.");
elseif (word == "l")
  if (!words)
    {from, to} = {1, min(n, 200)};
  endif
  for i in [max(1, from)..min(n, to)]
    who:tell(i == at ? ">" | " ", $string:right(i, 3), ": ", lines[i]);
  endfor
  who:tell("(", n, n == 1 ? " line" | " lines", at <= n ? tostr("; the next one goes before line ", at) | "", ")");
elseif (word == "i")
  who.editing[5] = good ? from | n + 1;
  who:tell(good ? tostr("Before line ", from, ".") | "At the end.");
elseif (!good && word in {"d", "r", "s"})
  who:tell("There is no such line. .l shows the lines, .h what can be typed.");
elseif (word == "d")
  who.editing[4] = {@lines[1..from - 1], @lines[to + 1..n]};
  who.editing[5] = min(at, n - to + from);
  who:tell(to == from ? tostr("Line ", from, " is gone.") | tostr("Lines ", from, " to ", to, " are gone."));
elseif (word == "r" && length(words) > 1)
  who.editing[4][from] = $string:trim(rest[length(words[1]) + 1..$]);
  who:tell("Line ", from, " is: ", who.editing[4][from]);
elseif (word == "s" && (i = index(rest, "/")) > length(words[1]) + 1)
  old = $string:trim(rest[length(words[1]) + 1..i - 1]);
  if (old && index(lines[from], old, 1))
    who.editing[4][from] = strsub(lines[from], old, rest[i + 1..$], 1);
    who:tell("Line ", from, " is: ", who.editing[4][from]);
  else
    who:tell("Line ", from, " has no ", $string:quoted(old), ".");
  endif
else
  who:tell("That is no command of the editor. .h shows them.");
endif
.

@program $editor:finish this none this rxd wiz
if (caller != this)
  raise(E_PERM);
endif
{who} = args;
{kind, what, name, lines, at, raw, @rest} = who.editing;
fault = "";
try
  if (!valid(what) || what.owner == #-1 || (kind == "board" && !$isa(what, $board)))
    fault = "What it was for is gone.";
  elseif (!raw && rest && kind in {"verb", "text"} && !equal(now = this:lines_of(who, kind, what, name), rest[1]))
    // somebody else wrote there too: that is lost only if the writer says so
    who.editing[7] = now;
    fault = "It has changed since you began. A dot once more puts your lines in its place.";
  elseif (kind == "verb")
    told = this:save_verb(who, what, name, lines);
    fault = told ? told[1] | "";
  elseif (kind == "letter")
    fault = lines ? $post:send(who, what, lines) | "There is nothing in it.";
  elseif (kind == "list")
    fault = lines ? $post:send_list(who, name, lines) | "There is nothing in it.";
  elseif (kind == "board")
    fault = lines ? (what:add(lines) ? "" | "It isn't pinned.") | "There is nothing in it.";
  elseif (!$player:lets_speak(who))
    fault = "It isn't kept.";
  else
    this:save_text(who, what, name, lines);
  endif
except e (ANY)
  fault = "That can't be done: " + e[2] + ".";
endtry
if (fault)
  who:tell(fault, " (You are still writing: .q drops it.)");
  who.editing[6] = 0;
  return;
endif
who.editing = {};
if (kind == "verb")
  who:tell("Verb programmed.");
elseif (kind == "text")
  who:tell(what.name, ".", name, " has ", length(lines), length(lines) == 1 ? " line." | " lines.");
endif
.

// What is kept is kept with the rights of who writes.
// The lines that there are now, if WHO may read them: else it would show who guesses a password.
@program $editor:lines_of this none this rxd wiz
if (caller != this)
  raise(E_PERM);
endif
{who, kind, what, name} = args;
set_task_perms(who);
lines = kind == "verb" ? verb_code(what, name) | what.(name);
return typeof(lines) == STR ? (lines ? {lines} | {}) | lines;
.

@program $editor:save_verb this none this rxd wiz
if (caller != this)
  raise(E_PERM);
endif
{who, what, name, lines} = args;
set_task_perms(who);
return set_verb_code(what, name, lines);
.

@program $editor:save_text this none this rxd wiz
if (caller != this)
  raise(E_PERM);
endif
{who, what, name, lines} = args;
set_task_perms(who);
what.(name) = typeof(what.(name)) == STR && length(lines) < 2 ? (lines ? lines[1] | "") | lines;
.

// @edit THING, @edit THING.PROPERTY, @edit THING:VERB; @write THING.PROPERTY takes lines until a dot, as a client sends them
@program $builder:"@edit @write" any any any rd wiz
if (player != this)
  return $builder:refuse(verb);
endif
set_task_perms(player);
if (!argstr || (verb == "@write" && !index(argstr, ".")))
  player:tell(verb == "@write" ? "For example: @write #12.description   (lines follow, and a dot)" | "For example: @edit whistle   or: @edit whistle.description   or: @edit whistle:blow");
  return;
endif
try
  if (index(argstr, ":"))
    if (!player.programmer)
      player:tell("You are not a programmer.");
      return;
    endif
    p = $match:part(argstr, ":", player);
    at = p ? this:verb_of(@p) | {};
    if (p == 0)
      return;
    elseif (!at)
      player:tell("There is no such verb. To make one: @verb ", argstr, " this none none");
      return;
    endif
    {o, v} = at;
    info = `verb_info(o, v) ! E_PERM => {}';
    if (!info || !(player.wizard || info[1] == player || index(info[2], "w")))
      player:tell("That verb isn't yours.", info ? " @list " + argstr + " shows it." | "");
      return;
    endif
    lines = `verb_code(o, v) ! E_PERM => 0';
    name = strsub($string:explode(info[3])[1], "*", "");
    kind = "verb";
  else
    p = index(argstr, ".") ? $match:part(argstr, ".", player) | {};
    o = p ? p[1] | $match:object(argstr, player);
    if (!p && index(argstr, "."))
      if (p == {})
        player:tell("For example: @edit whistle   or: @edit whistle.description");
      endif
      return;
    elseif (!p && !$match:found(o, argstr, player))
      return;
    endif
    name = p ? p[2] | ($isa(o, $note) ? "text" | "description");
    lines = `o.(name) ! ANY => 0';
    lines = typeof(lines) == STR ? (lines ? {lines} | {}) | lines;
    kind = "text";
    if (name in {"name", "aliases"})
      lines = 0;
    endif
    for l in (typeof(lines) == LIST ? lines | {})
      lines = typeof(l) == STR ? lines | 0;
    endfor
  endif
  if (typeof(lines) != LIST || (kind == "text" && !$controls(player, o)))
    player:tell(typeof(lines) == LIST ? $string:subject(o.name) + " isn't yours." | "That is no text that you may edit.");
  elseif (!$player:lets_speak(player))
    return;
  elseif (verb == "@write")
    $editor:start(player, kind, o, name, {}, 1);
    player:tell("Lines for ", o, ".", name, " follow; a line of one dot ends.");
  elseif (player.local_editing)
    $editor:send_local(player, tostr(o.name, kind == "verb" ? ":" | ".", name), tostr(kind == "verb" ? ".program " | "@write ", o, kind == "verb" ? ":" | ".", name), lines);
  else
    $editor:start(player, kind, o, kind == "verb" ? v | name, lines);
  endif
finally
  // a client sends its lines all the same: they are no commands
  if (verb == "@write")
    $editor:drop(player);
  endif
endtry
.

// @local on: @edit sends the text to a client that edits by itself
@program $builder:@local any any any rd wiz
if (player != this)
  return $builder:refuse(verb);
elseif ((argstr = $string:trim(argstr)) in {"on", "off"})
  this.local_editing = argstr == "on";
endif
player:tell("@edit ", this.local_editing ? "sends the text to your client, which has to know #$# edit." | "opens the editor of this world.", " (@local on, @local off)");
.

// Letters. Each player who isn't a guest has a box of thirty.

// {from, its name, when, lines, read}
@property $player.letters - wiz = {}
// {when the day began, how many letters were sent since}
@property $player.sent - wiz = {0, 0}
@property $post.most r wiz = 30
@property $post.most_in_day r wiz = 50
// How many letters of one player a box holds: so nobody fills another's box alone.
@property $post.most_of_one r wiz = 10

// {{name, who made it, those who get its letters}, ..}
@property $post.lists - wiz = {}

// What is wrong with a letter of lines from WHO, or "".
@program $post:fault this none this rxd wiz
{who, lines} = args;
size = 0;
for l in (lines)
  if (typeof(l) != STR)
    return "A letter has lines of text.";
  endif
  size = size + length(l);
endfor
{day, n} = who.sent;
since = time() - day;
if (!$isa(who, $builder))
  return "Guests can't send letters. Type help create.";
elseif (length(lines) > 60 || size > 8000)
  return "A letter has at most 60 lines and 8,000 characters.";
elseif (n >= this.most_in_day && since >= 0 && since < 86400 && !who.wizard)
  return "You have sent as many letters today as may be sent in a day.";
endif
return "";
.

// Has WHOM's box as many letters of WHO as it may have?
@program $post:is_enough this none this rxd wiz
if (caller != this)
  raise(E_PERM);
endif
{who, whom} = args;
n = 0;
for l in (whom.letters)
  n = n + (l[1] == who);
endfor
return n >= this.most_of_one && !who.wizard;
.

// Counts a letter of WHO's day.
@program $post:count this none this rxd wiz
if (caller != this)
  raise(E_PERM);
endif
{who} = args;
{day, n} = who.sent;
since = time() - day;
who.sent = since < 0 || since >= 86400 ? {time(), 1} | {day, n + 1};
.

@program $post:deliver this none this rxd wiz
if (caller != this)
  raise(E_PERM);
endif
{who, name, whom, lines} = args;
whom.letters = {@whom.letters, {who, name, time(), lines, 0}};
notify(whom, tostr("A letter from ", name, " has come. (@mail)"));
.

// Sends a letter of lines from WHO to WHOM; what is wrong, or "".
@program $post:send this none this rxd wiz
{who, whom, lines} = args;
if (caller_perms() != who && !caller_perms().wizard)
  raise(E_PERM);
endif
fault = this:fault(who, lines);
if (fault)
  return fault;
elseif (!valid(whom) || !$isa(whom, $builder) || !is_player(whom))
  return "Guests have no letter box.";
elseif (length(whom.letters) >= this.most)
  return whom.name + "'s letter box is full.";
elseif (this:is_enough(who, whom))
  return tostr(whom.name, " has ", this.most_of_one, " letters of yours already.");
elseif (!$player:lets_speak(who, whom, "letters"))
  return "It isn't sent.";
endif
this:count(who);
who:tell("Your letter to ", whom.name, " is sent.");
this:deliver(who, who.name, whom, lines);
return "";
.

// The place of the list of that name, or 0.
@program $post:list this none this rxd wiz
for i in [1..length(this.lists)]
  if (this.lists[i][1] == args[1])
    return i;
  endif
endfor
return 0;
.

// Sends a letter to those who get the letters of a list, of whom WHO has to be one.
@program $post:send_list this none this rxd wiz
{who, name, lines} = args;
if (caller_perms() != who && !caller_perms().wizard)
  raise(E_PERM);
endif
i = this:list(name);
fault = this:fault(who, lines);
if (!i)
  return "There is no list of that name. (@lists)";
elseif (fault)
  return fault;
elseif (!(who in this.lists[i][3]))
  return "Only its readers write to a list: @subscribe " + name;
elseif (!$player:lets_speak(who))
  return "It isn't sent.";
endif
this:count(who);
n = 0;
for o in (this.lists[i][3])
  if (valid(o) && is_player(o) && $isa(o, $builder) && !(o in who.gagged_by || {"letters", #-1} in o.refusals || {"letters", who} in o.refusals) && length(o.letters) < this.most && !this:is_enough(who, o))
    n = n + 1;
    this:deliver(who, who.name + " to *" + this.lists[i][1], o, lines);
  endif
endfor
who:tell("Your letter is sent to ", n, n == 1 ? " player." | " players.");
return "";
.

// @lists; @newlist NAME, @rmlist NAME; @subscribe NAME, @unsubscribe NAME
@program $builder:"@lists @newlist @rmlist @subscribe @unsubscribe" any any any rd wiz
if (player != this)
  return $builder:refuse(verb);
elseif (verb == "@lists")
  for l in ($post.lists)
    player:tell(player in l[3] ? "* " | "  ", $string:left(l[1], 18), $string:left(length(l[3]), 4), length(l[3]) == 1 ? "reader, of " | "readers, of ", valid(l[2]) ? l[2].name | "nobody");
  endfor
  player:tell($post.lists ? "@subscribe NAME, @send *NAME TEXT; @newlist NAME; * is yours." | "There are no lists. To make one: @newlist NAME");
  return;
endif
name = $string:unquoted(argstr);
name = name && name[1] == "*" ? name[2..$] | name;
i = $post:list(name);
if (verb == "@newlist")
  mine = 0;
  for l in ($post.lists)
    mine = mine + (l[2] == player);
  endfor
  if (!$player:lets_speak(player))
    return;
  elseif (i || length(name) < 2 || length(name) > 16 || index(name, " "))
    player:tell(i ? "There is such a list." | "A list's name has 2 to 16 characters, and no blank. For example: @newlist tea");
  elseif (length($post.lists) >= 50)
    player:tell("There are fifty lists already.");
  elseif (mine >= 5 && !player.wizard)
    player:tell("You have made five lists already. @rmlist one first.");
  else
    $post.lists = {@$post.lists, {name, player, {player}}};
    player:tell("The list ", name, " is made, and you get its letters: @send *", name, " TEXT");
  endif
elseif (!name)
  player:tell("For example: ", verb, " tea   (@lists shows which there are)");
elseif (!i)
  player:tell("There is no list ", $string:quoted(name), ". (@lists)");
elseif (verb == "@rmlist")
  if (player.wizard || $post.lists[i][2] == player)
    $post.lists = listdelete($post.lists, i);
    player:tell("The list ", name, " is gone.");
  else
    player:tell("It isn't yours.");
  endif
elseif (verb == "@unsubscribe")
  $post.lists[i][3] = setremove($post.lists[i][3], player);
  player:tell("You get no more letters of ", name, ".");
elseif (length($post.lists[i][3]) >= 100)
  player:tell("It has a hundred readers already.");
else
  $post.lists[i][3] = setadd($post.lists[i][3], player);
  player:tell("You get the letters of ", name, ". (@unsubscribe ", name, ")");
endif
.

// @send NAME TEXT; @send NAME alone opens the editor
@program $builder:@send any any any rd wiz
if (player != this)
  return $builder:refuse(verb);
elseif (!args)
  player:tell("For example: @send ", player.name, " Come to tea.   or, for several lines: @send ", player.name);
  return;
endif
i = index(argstr, " ");
text = i ? $string:trim(argstr[i..$]) | "";
if (index(args[1], "*") == 1)
  name = args[1][2..$];
  if (!text && $post:list(name))
    $editor:start(player, "list", $post, name, {});
  elseif (fault = $post:send_list(player, name, {text}))
    player:tell(fault);
  endif
  return;
endif
o = $match:player(args[1]);
if (!$match:found_player(o, args[1], player) || !$player:lets_speak(player, o, "letters"))
  return;
elseif (text)
  fault = $post:send(player, o, {text});
  if (fault)
    player:tell(fault);
  endif
elseif (!$isa(o, $builder))
  player:tell("Guests have no letter box.");
else
  $editor:start(player, "letter", o, "", {});
endif
.

// @mail lists the letters, @mail N reads one, @mail new the next one that isn't read; @rmmail N, @rmmail N-M; @answer N TEXT
@program $builder:"@mail @rmmail @answer" any any any rd wiz
if (player != this)
  return $builder:refuse(verb);
endif
all = this.letters;
n = args ? toint(args[1]) | 0;
if (verb == "@mail" && args && args[1] == "new")
  for i in [1..length(all)]
    n = n || all[i][5] ? n | i;
  endfor
  if (!n)
    player:tell("All your letters are read.");
    return;
  endif
elseif (verb == "@mail" && !args)
  for i in [1..length(all)]
    l = all[i];
    first = l[4] ? l[4][1] | "";
    player:tell(l[5] ? "  " | "* ", $string:right(i, 2), "  ", $time:text(l[3]), "  ", $string:left(l[2], 20), "  ", length(first) > 30 ? first[1..30] + ".." | first);
  endfor
  player:tell(all ? "@mail N reads one, @answer N TEXT answers, @rmmail N throws it away; * isn't read." | "You have no letters.");
  return;
endif
gone = {};
n = verb == "@rmmail" && args ? length(all) | n;
for w in (verb == "@rmmail" ? args[1..min(30, length(args))] | {})
  dash = index(w, "-");
  from = toint(dash ? w[1..dash - 1] | w);
  to = dash ? toint(w[dash + 1..$]) | from;
  n = from > to || to > length(all) ? 0 | min(n, from);
  for i in [from..n ? to | from - 1]
    gone = setadd(gone, i);
  endfor
endfor
if (n < 1 || n > length(all))
  player:tell(all ? tostr("You have ", length(all) == 1 ? "one letter" | tostr("the letters 1 to ", length(all)), ". For example: ", verb, " 1") | "You have no letters.");
elseif (verb == "@mail")
  {from, name, when, lines, seen} = all[n];
  player:tell("Letter ", n, ", from ", name, ", ", $time:text(when), ":");
  shown = {};
  for l in (lines)
    shown = {@shown, @l ? $string:wrap("    " + l) | {""}};
  endfor
  player:tell_lines(shown);
  this.letters[n][5] = 1;
elseif (verb == "@rmmail")
  left = {};
  for i in [1..length(all)]
    left = i in gone ? left | {@left, all[i]};
  endfor
  this.letters = left;
  player:tell(length(gone) == 1 ? tostr("The letter from ", all[n][2], " is") | tostr(length(gone), " letters are"), " thrown away.");
else
  o = all[n][1];
  i = index(argstr, " ");
  text = i ? $string:trim(argstr[i..$]) | "";
  if (!valid(o) || !is_player(o))
    player:tell(all[n][2], " is no more.");
  elseif (!text)
    $editor:start(player, "letter", o, "", {});
  elseif (fault = $post:send(player, o, {text}))
    player:tell(fault);
  endif
endif
.

// A note: a thing with lines to be read, and written by its owner, or by who holds it if open_to_all is set.

;$note.f = 1;
@property $note.text rc = {}
@property $note.open_to_all rc = 0

@program $note:look_self this none this rxd
{who} = args;
pass(who);
who:tell(`this.text ! E_PERM => 1' ? "There is something written on it. (read it)" | "Nothing is written on it.");
.

@program $note:read this none none rd
if (!(this.location in {player, player.location}) && !$controls(player, this))
  player:tell("It isn't within reach.");
  return;
endif
lines = $string:lines(`this.text ! E_PERM => "You can't read it."');
player:tell_lines(lines ? lines | {"Nothing is written on it."});
.

@program $note:"write" any on this rd
if (!(this.location in {player, player.location}))
  player:tell("It isn't within reach.");
elseif (!dobjstr)
  player:tell("For example: write Milk and bread on ", this.name);
else
  this:append(dobjstr);
endif
.

@program $note:"erase wipe" this none none rd
if (this.location in {player, player.location})
  this:append();
else
  player:tell("It isn't within reach.");
endif
.

// Adds a line, or, without one, wipes all, for the player whose command runs. The text belongs to the note's owner.
@program $note:append this none this rxd wiz
if (caller != this)
  raise(E_PERM);
elseif (!($controls(player, this) || (this.open_to_all && this.location == player)))
  player:tell("You may not write on it.");
elseif (!$player:lets_speak(player))
  return;
elseif (!args)
  this.text = {};
  player:tell("You wipe ", $string:the(this.name), " clean.");
elseif (length(lines = typeof(this.text) == LIST ? this.text | {tostr(this.text)}) >= 200 || length(args[1]) > 1000)
  player:tell("It is full.");
else
  this.text = {@lines, args[1]};
  player:tell("You write a line on ", $string:the(this.name), ".");
endif
.
