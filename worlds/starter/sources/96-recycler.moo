// The recycler: a thing that goes is emptied and kept, and its number is handed out again. So nobody can use the numbers up.

@object $recycler from #1 named Recycler
@object $record from #1 named Record
@object $post from #1 named Post
@object $editor from #1 named Editor
@object $note from $thing named generic note
@object $vehicle from $room named generic vehicle
;for o in ({$recycler, $record, $post, $editor}) o.owner = #3; endfor
@property $recycler.pool r wiz = {}
@property $recycler.last_serial r wiz = 0

// An object of the kind KIND for whoever asks, with one less of the quota. A player makes most_in_day of them in a day.
@program $recycler:make this none this rxd wiz
{kind} = args;
who = caller_perms();
if (!valid(who) || !valid(kind))
  raise(E_INVARG);
elseif (!(kind.f || $controls(who, kind)))
  raise(E_PERM);
endif
quota = `who.ownership_quota ! E_PROPNF => {}';
// whoever lets the ticks run out half way has made a thing that doesn't count
this:spare(3000, "too few ticks are left");
if (typeof(quota) == INT && quota < 1)
  raise(E_QUOTA);
elseif (!who.wizard && $isa(who, $player))
  {day, n} = who.made;
  since = time() - day;
  if (since < 0 || since >= 86400)
    day = time();
    n = 0;
  endif
  if (n >= who.most_in_day)
    raise(E_QUOTA, "you have made as many things today as may be made in a day");
  endif
  who.made = {day, n + 1};
endif
o = #-1;
while (this.pool && o == #-1)
  o = this.pool[1];
  this.pool = listdelete(this.pool, 1);
  o = valid(o) && o.owner == #-1 ? o | #-1;
endwhile
if (o != #-1)
  // what the owner may set belongs to the owner from the change of the parent on
  chparent(o, #-1);
  o.owner = who;
  chparent(o, kind);
  if (typeof(quota) == INT)
    who.ownership_quota = quota - 1;
  endif
  o.serial = this:next_serial();
  `o:initialize() ! E_VERBNF';
else
  o = create(kind, who);
  o.serial = this:next_serial();
endif
return o;
.

@program $recycler:next_serial this none this rxd wiz
if (caller != this)
  raise(E_PERM);
endif
return this.last_serial = this.last_serial + 1;
.

// Why WHO can't make N things more, or "".
@program $recycler:fault this none this rxd wiz
{who, n} = args;
quota = `who.ownership_quota ! E_PROPNF => {}';
if (typeof(quota) == INT && quota < n)
  return tostr("Your quota is used up: that takes ", n, ", and you can make ", quota, " more.");
elseif (!who.wizard && $isa(who, $player))
  {day, made} = who.made;
  since = time() - day;
  if (since >= 0 && since < 86400 && made + n > who.most_in_day)
    return "You have made as many things today as may be made in a day.";
  endif
endif
return "";
.

// Does the core need it: is it older than the players' own things, or has #0 a name for it?
@program $recycler:is_core this none this rxd
{o} = args;
if (o <= $login.core_end)
  return 1;
endif
for name in (properties(#0))
  if (`#0.(name) ! ANY => 0' == o)
    return 1;
  endif
endfor
return 0;
.

// Is PLACE without verbs of who is a stranger to WHO, its own or those of its kinds? Such a verb could use up the ticks. What
// changed hands keeps the verbs of who programmed them, so each verb is asked.
@program $recycler:is_safe this none this rxd wiz
return valid(args[1]) && !this:stranger(@args);
.

// {whose the first such verb is}, or {}. So many verbs that it would take long to look at them all count as one of the owner's.
@program $recycler:stranger this none this rxd wiz
{place, ?who = player} = args;
k = place;
while (valid(k) && k > $login.core_end)
  n = length(verbs(k));
  if (n > 200)
    return {k.owner};
  endif
  for i in [1..n]
    by = verb_info(k, i)[1];
    if (by != who && !(valid(by) && (by.wizard || by == $keeper)))
      return {by};
    endif
  endfor
  k = parent(k);
endwhile
return {};
.

// Is the verb NAME that O has, by itself or by its kinds, one of O's owner?
@program $recycler:is_own this none this rxd wiz
{o, name} = args;
k = o;
while (valid(k))
  if (info = `verb_info(k, name) ! ANY => 0')
    return info[1] == o.owner;
  endif
  k = parent(k);
endwhile
return 0;
.

// Takes the verbs from an object, and the kinds that don't belong to the core.
@program $recycler:disarm this none this rxd wiz
if (!caller_perms().wizard)
  raise(E_PERM);
endif
{o} = args;
k = parent(o);
while (valid(k) && k > $login.core_end)
  k = parent(k);
endwhile
chparent(o, valid(k) ? k | #1);
n = length(verbs(o));
while (n)
  this:spare(12000);
  for i in [1..min(n, 50)]
    delete_verb(o, n);
    n = n - 1;
  endfor
endwhile
.

// Before an exit goes, its two rooms forget it. Before a room goes, its people go to the first room, the exits from it and to it
// go too, and who lived here lives at the start. No verb of others is called, which could use up the ticks: so who has verbs of
// his own, which would run as he arrives, is nowhere, and has to type home; and so are the last of many people, since each one
// who arrives looks round.
@program $recycler:unhook this none this rxd wiz
if (!caller_perms().wizard)
  raise(E_PERM);
endif
{o} = args;
if ($isa(o, $exit))
  for r in ({o.source, o.dest})
    if ($isa(r, $room))
      r.exits = setremove(r.exits, o);
      r.ways_in = setremove(r.ways_in, o);
    endif
  endfor
elseif ($isa(o, $room))
  for p in (players())
    if (`p.home ! ANY => 0' == o)
      p.home = $login.start;
    endif
    if (`p.last_place ! ANY => 0' == o)
      p.last_place = #-1;
    endif
  endfor
  for p in (o.contents)
    if (is_player(p))
      this:spare(15000);
      dest = ticks_left() > 62500 && this:is_safe(p) ? $login.start | #-1;
      notify(p, tostr("The place around you vanishes.", dest == #-1 ? " Type  home." | ""));
      move(p, dest);
    endif
  endfor
  for e in ({@o.exits, @o.ways_in})
    if ($isa(e, $exit) && o in {e.source, e.dest})
      this:spare(10000);
      this:keep(e);
    endif
  endfor
endif
.

// Raises an error, with the text WHY, if fewer than N ticks are left: when they are used up, nobody reads what was done.
@program $recycler:spare this none this rxd wiz
{n, ?why = "much is in it, or leads there, of which a part is gone by now. Type it again"} = args;
if (ticks_left() < n)
  raise(E_QUOTA, why);
endif
.

// Takes an object away. What is in it stays where it is, or goes to its owner; kinds of it become kinds of its own kind.
// What is large, what belongs to the core, and what is in the hands or the room of who has verbs of his own, is recycled by the
// server, and its number isn't used again.
@program $recycler:keep this none this rxd wiz
{o} = args;
if (!valid(o) || is_player(o) || o <= #3)
  raise(E_INVARG);
elseif (!$controls(caller_perms(), o))
  raise(E_PERM);
elseif (o.owner == #-1 && o in this.pool)
  raise(E_INVARG, "it is recycled already");
endif
// first what the object itself does about it: it may fail, or use up the ticks; a stranger's object isn't asked, nor is a verb
// of a stranger, who made its kind or had it before
core = this:is_core(o);
if (!core && o.owner in {caller_perms(), player} && this:is_own(o, "recycle"))
  `o:recycle() ! ANY';
endif
if (!valid(o))
  return;
elseif (!core && !(o.owner in {caller_perms(), player} && this:is_safe(o, o.owner)))
  this:disarm(o);
endif
this:unhook(o);
if (core || length(verbs(o)) > 100 || length(properties(o)) > 100 || length(children(o)) > 50)
  return recycle(o);
endif
for c in (o.contents)
  this:spare(8000);
  // a vehicle comes into nobody's hands: its people could not leave it
  dest = #-1;
  for place in ({$isa(c, $vehicle) ? $login.start | c.owner, o.location})
    dest = this:is_safe(place) && `place:accept(c) ! ANY => 0' ? place | dest;
  endfor
  `move(c, dest) ! ANY';
endfor
for c in (children(o))
  chparent(c, parent(o));
endfor
while (verbs(o))
  delete_verb(o, 1);
endwhile
for name in (properties(o))
  delete_property(o, name);
endfor
if (valid(o.location) && !this:is_safe(o.location))
  // it would leave by a stranger's exitfunc
  return recycle(o);
endif
move(o, #-1);
chparent(o, #-1);
who = o.owner;
o.name = "recycled object";
o.owner = #-1;
o.r = o.w = o.f = 0;
chparent(o, #1);
if (valid(who) && typeof(`who.ownership_quota ! ANY => 0') == INT && is_player(who))
  who.ownership_quota = who.ownership_quota + 1;
endif
this.pool = {@this.pool, o};
.
