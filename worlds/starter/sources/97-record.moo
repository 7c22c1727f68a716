// The record: who did what, for wizards. The last 500 lines are kept.

@property $record.lines - wiz = {}
@property $record.most r wiz = 500
@property $record.watchers - wiz = {}

@program $record:add this none this rxd wiz
if (!caller_perms().wizard)
  raise(E_PERM);
endif
{text} = args;
text = text[1..min(200, length(text))];
n = length(this.lines);
if (n && index(text, "login refused") == 1 && index(this.lines[n][2], "login refused") == 1)
  // a flood of guesses leaves one line, not all the lines there are
  n = n - 1;
endif
this.lines = {@this.lines[max(1, n - this.most + 2)..n], {time(), text}};
this:show_watchers(text);
.

// Tells the wizards who watch.
@program $record:show_watchers this none this rxd wiz
if (!caller_perms().wizard)
  raise(E_PERM);
endif
for w in (this.watchers)
  if (valid(w) && w.wizard)
    notify(w, "[" + args[1] + "]");
  endif
endfor
.

@program $record:show this none this rxd wiz
if (!caller_perms().wizard)
  raise(E_PERM);
endif
{who, text} = args;
n = text ? toint(text) | 20;
all = this.lines;
if (n > 0)
  all = all[max(1, length(all) - n + 1)..$];
endif
// the latest ones first, as long as the ticks last
shown = {};
i = length(all);
while (i > 0 && ticks_left() > 20000)
  if (n > 0 || index(all[i][2], text))
    shown = {tostr($time:text(all[i][1]), "  ", all[i][2]), @shown};
  endif
  i = i - 1;
endwhile
for l in (shown)
  who:tell(l);
endfor
n = length(shown);
who:tell(n, n == 1 ? " line" | " lines", i > 0 ? ". There may be earlier ones: @log TEXT shows those with TEXT." | ".");
.
