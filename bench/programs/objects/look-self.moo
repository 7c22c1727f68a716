@turns 12 a place with ten things looked at: its name, its description, the list of what is there
@create #-1 named seen_kind
@property $seen_kind.description ""
@property $seen_kind.hidden 0
@program $seen_kind:title
return this.name;
.
@program $seen_kind:description
return this.description;
.
@create $seen_kind named parlour
@set $parlour.description to "A quiet parlour with a fireplace."
@property $parlour.dark 0
@program $parlour:look_self
{?brief = 0} = args;
player:tell(this:title());
if (!brief)
  player:tell(this:description());
endif
if (!this.dark)
  this:tell_contents(setremove(this.contents, player));
endif
.
@program $parlour:tell_contents
{things} = args;
names = {};
for o in (things)
  if (valid(o) && !o.hidden)
    names = {@names, "a " + o:title()};
  endif
endfor
if (names)
  line = "You see " + names[1];
  for k in [2..length(names)]
    line = line + (k == length(names) ? " and " | ", ") + names[k];
  endfor
  player:tell(line, " here.");
endif
.
@create $seen_kind named clock
@move $clock to $parlour
@create $seen_kind named sofa
@move $sofa to $parlour
@create $seen_kind named carpet
@move $carpet to $parlour
@create $seen_kind named statue
@move $statue to $parlour
@create $seen_kind named spider
@set $spider.hidden to 1
@move $spider to $parlour
@create $seen_kind named vase
@move $vase to $parlour
@create $seen_kind named piano
@move $piano to $parlour
@create $seen_kind named candle
@move $candle to $parlour
@create $seen_kind named basket
@move $basket to $parlour
@create $seen_kind named cat
@move $cat to $parlour
@program $player:tell
notify(this, tostr(@args));
.
@program run
{n} = args;
for i in [1..n]
  $parlour:look_self();
endfor
return n;
.
