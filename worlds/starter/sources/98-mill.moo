// The old mill: a game of five rooms, to be played and to be read. The wheel turns while the sluice is open and the axle
// is oiled; then grain becomes flour, and who brings flour writes a name on the beam. When somebody comes and nobody
// is there, all is as at first; and at a checkpoint at which nobody is there the sluice falls shut.

@object $mill from $room named The Mill Yard
@object $mill_floor from $room named The Grinding Floor
@object $mill_wheel from $room named The Wheel House
@object $mill_cellar from $room named The Mill Cellar
@object $mill_loft from $room named The Sack Loft

@para $mill.description
Cobbles, nettles, and a mill that nobody has worked for years. A wooden sluice holds the
stream back from the wheel; it has a square hole where a crank would go. The door stands
open. Somebody has chalked on it: THE MILLER GRINDS FOR WHO LETS THE RIVER IN.
.
@para $mill_floor.description
Two stones as wide as a table lie on each other under a wooden hopper. Over the hopper
runs a beam with names in chalk. A ladder leads up, steps lead down into the dark, and
north the axle goes through the wall.
.
@para $mill_wheel.description
Half a room, half a ditch: the great wheel hangs here, green to the middle. Its axle is
brown with rust and groans when you look at it.
.
@para $mill_cellar.description
Low, damp and cool, with a shelf along the wall for all that a miller wants to keep from
freezing. (search shelf)
.
@para $mill_loft.description
Dust, sunlight in stripes, and a heap of old sacks that something has nested in.
.

;for w in ({{"mill", $meadow, $mill, {}}, {"east", $mill, $meadow, {"e", "meadow"}}, {"door", $mill, $mill_floor, {"inside"}}, {"out", $mill_floor, $mill, {"door", "outside"}}, {"north", $mill_floor, $mill_wheel, {"n"}}, {"south", $mill_wheel, $mill_floor, {"s"}}, {"up", $mill_floor, $mill_loft, {"u", "ladder"}}, {"down", $mill_loft, $mill_floor, {"d", "ladder"}}, {"down", $mill_floor, $mill_cellar, {"d", "steps"}}, {"up", $mill_cellar, $mill_floor, {"u", "steps"}}}) e = create($exit, #3); e.owner = $keeper; e.r = 1; e.name = w[1]; e.aliases = w[4]; e:set_ends(w[2], w[3]); w[2]:add_exit(e); endfor

@object $mill_sluice from $thing named wooden sluice
@object $mill_axle from $thing named rusty axle
@object $mill_hopper from $container named hopper
@object $mill_beam from $thing named chalked beam
@object $mill_sacks from $thing named heap of sacks
@object $mill_crank from $thing named iron crank
@object $mill_can from $thing named oil can
@object $mill_grain from $thing named sack of grain
@object $mill_flour from $thing named sack of flour
@object $mill_shelf from $thing named stone shelf
;for w in ({{$mill_sluice, "sluice", $mill, "Oak planks in a frame. In the frame is a square hole for a crank. (turn sluice)"}, {$mill_axle, "axle", $mill_wheel, "An axle like a tree. It needs oil. (oil axle)"}, {$mill_hopper, "funnel", $mill_floor, "A wooden funnel over the stones. You could put grain in it."}, {$mill_beam, "beam", $mill_floor, "Oak, with names in chalk. (read beam)"}, {$mill_sacks, "sacks", $mill_loft, "Old sacks, twenty or so. (search sacks)"}, {$mill_shelf, "shelf", $mill_cellar, "Jars and dust. (search shelf)"}}) w[1].aliases = {w[2]}; w[1].fixed = 1; w[1].description = w[4]; move(w[1], w[3]); endfor
;for w in ({{$mill_crank, "crank", "A crank of iron, with a square end."}, {$mill_can, "can", "It still has oil in it."}, {$mill_grain, "grain", "Barley, from the weight of it."}, {$mill_flour, "flour", "Warm, fine, and yours."}}) w[1].aliases = {w[2]}; w[1].description = w[3]; endfor

@property $mill.open r = 0
@property $mill.oiled r = 0
@property $mill.names r = {}
@property $mill.rooms r = {}
;$mill.rooms = {$mill, $mill_floor, $mill_wheel, $mill_cellar, $mill_loft};

@program $mill:turns this none this rxd
return this.open && this.oiled;
.

// Is somebody in the mill, BUT aside?
@program $mill:in_use this none this rxd
{?but = #-1} = args;
for r in (this.rooms)
  for o in (r.contents)
    if (is_player(o) && o != but)
      return 1;
    endif
  endfor
endfor
return 0;
.

@program $mill:set_back this none this rxd
if (caller != this)
  raise(E_PERM);
endif
this.open = this.oiled = 0;
for o in ({$mill_crank, $mill_can, $mill_grain, $mill_flour})
  o:moveto(#-1);
endfor
.

// It is asked before somebody comes, who is still where he was.
@program $mill:accept this none this rxd
what = args[1];
if (is_player(what) && !(what.location in this.rooms) && !this:in_use(what))
  this:set_back();
endif
return pass(@args);
.

@program $mill:at_checkpoint this none this rxd
if (caller != #0)
  raise(E_PERM);
endif
if (this.open && !this:in_use())
  this.open = 0;
  $meadow:announce("Over at the mill something wooden falls shut.");
endif
.
;#0.at_checkpoint = {$keeper, $mill};

// Announces in all five rooms that the stones have begun to grind.
@program $mill:begin this none this rxd
if (!(caller in {this, $mill_sluice, $mill_axle}))
  raise(E_PERM);
endif
text = this:turns() ? "The wheel turns, the axle rumbles, and the stones begin to grind." | "";
for r in (text ? this.rooms | {})
  r:announce(text);
endfor
.

@program $mill_sluice:"turn open crank" this none none rd
this:lift();
.
@program $mill_sluice:"turn open crank" this with any rd
iobj == $mill_crank ? this:lift() | player:tell("The hole in the frame is square. It takes a crank.");
.
@program $mill_sluice:"put insert" any in this rd
dobj == $mill_crank ? this:lift() | player:tell("The hole in the frame is square. It takes a crank.");
.
@program $mill_crank:"turn use" this none none rd
player.location == $mill ? $mill_sluice:lift() | player:tell("There is nothing here that it fits.");
.

@program $mill_sluice:lift this none this rxd
if (!(caller in {this, $mill_crank}))
  raise(E_PERM);
elseif (player.location != $mill)
  player:tell("It isn't within reach.");
elseif ($mill_crank.location != player)
  player:tell("The hole in the frame is square. You would need a crank.");
elseif ($mill.open)
  player:tell("It is as open as it goes.");
else
  $mill:set_open();
  player:tell("You turn the crank. The sluice goes up by a hand, and the stream finds the way to the wheel.");
  $mill:announce(player.name + " turns a crank, and the sluice goes up.", {player});
  $mill:begin();
endif
.

@program $mill:"set_open set_oiled" this none this rxd
if (!(caller in {$mill_sluice, $mill_axle}))
  raise(E_PERM);
endif
this.(verb[5..$]) = 1;
.

@program $mill_axle:"oil grease" this none none rd
this:be_oiled();
.
@program $mill_axle:"oil grease" this with any rd
iobj == $mill_can ? this:be_oiled() | player:tell("It needs oil.");
.

@program $mill_axle:be_oiled this none this rxd
if (caller != this)
  raise(E_PERM);
elseif (player.location != $mill_wheel)
  player:tell("It isn't within reach.");
elseif ($mill_can.location != player)
  player:tell("With what?");
elseif ($mill.oiled)
  player:tell("It shines already.");
else
  $mill:set_oiled();
  player:tell("You oil the axle, end to end. The groaning stops.");
  $mill_wheel:announce(player.name + " oils the axle.", {player});
  $mill:begin();
endif
.

@program $mill_wheel:look_self this none this rxd
pass(@args);
args[1]:tell($mill:turns() ? "The wheel turns, throwing water." | ($mill.open ? "Water beats against the wheel, but the axle holds it fast." | "Nothing moves."));
.

@program $mill_sacks:"search rummage" this none none rd
if (player.location != $mill_loft)
  player:tell("It isn't within reach.");
elseif (valid($mill_crank.location) && valid($mill_grain.location))
  player:tell("Only sacks, and a mouse that has had enough of you.");
else
  for o in ({$mill_crank, $mill_grain})
    if (!valid(o.location))
      o:moveto($mill_loft);
    endif
  endfor
  player:tell("Under the sacks there is an iron crank. And one sack isn't empty: it is full of grain.");
  $mill_loft:announce(player.name + " finds something under the sacks.", {player});
endif
.

// It is dark down there but for the lamp, as in the loft.
@program $mill_cellar:light this none this rxd
where = $lamp.location;
return $lamp.lit && (where == this || (valid(where) && where.location == this));
.
@program $mill_cellar:look_self this none this rxd
if (this:light())
  return pass(@args);
endif
args[1]:tell("It is dark");
args[1]:tell("You feel a shelf, and steps that lead up. A lamp would help.");
.

@program $mill_shelf:look_self this none this rxd
return $mill_cellar:light() ? pass(@args) | args[1]:tell("You only feel it: cold stone, and jars. A lamp would help.");
.

@program $mill_cellar:"search feel" any any any rd
if (player.location != this)
  return;
elseif (!this:light())
  player:tell("You feel about on the shelf, and knock something over. A lamp would help.");
elseif (valid($mill_can.location))
  player:tell("The shelf is empty.");
else
  $mill_can:moveto(this);
  player:tell("On the shelf, behind a jar, stands an oil can.");
endif
.

@program $mill_hopper:accept this none this rxd
return args[1] == $mill_grain;
.

@program $mill_hopper:"put pour insert" any in this rd
if (dobj != $mill_grain || dobj.location != player || player.location != $mill_floor)
  player:tell("Only grain goes into the hopper, and you have to hold it.");
elseif (!$mill:turns())
  player:tell("The stones don't turn: the grain would only lie there.");
else
  $mill_grain:moveto(#-1);
  $mill_flour:moveto($mill_floor);
  player:tell("The grain runs down between the stones, and flour comes out, warm. It fills a sack.");
  $mill_floor:announce(player.name + " grinds a sack of flour.", {player});
endif
.

@program $mill_beam:read this none none rd
player:tell("In chalk: ", $mill.names ? $string:join($mill.names, ", ") | "nobody yet", ".");
if ($mill_flour.location == player)
  player:tell("There is room for another: chalk beam");
endif
.

@program $mill_beam:chalk this none none rd
if (player.location != $mill_floor)
  player:tell("It isn't within reach.");
elseif ($mill_flour.location != player)
  player:tell("Only millers write here: those who hold flour of their own.");
else
  $mill_flour:moveto(#-1);
  $mill:add_name();
  player:tell("You write your name on the beam with a floury finger. You are a miller now.");
  $mill_floor:announce(player.name + " writes a name on the beam.", {player});
endif
.

@program $mill:add_name this none this rxd
if (caller != $mill_beam)
  raise(E_PERM);
endif
all = {@setremove(this.names, player.name), player.name};
this.names = all[max(1, length(all) - 19)..$];
.
