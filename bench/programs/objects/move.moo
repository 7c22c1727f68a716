@turns 120 a thing moved to another place and back, with `accept`, `exitfunc` and `enterfunc`
@create #-1 named place_kind
@property $place_kind.visits 0
@program $place_kind:accept
{what} = args;
return what != this;
.
@program $place_kind:enterfunc
{what} = args;
this.visits = this.visits + 1;
.
@program $place_kind:exitfunc
{what} = args;
this.visits = this.visits + 2;
.
@create $place_kind named hall
@create $place_kind named attic
@create #-1 named ball
@move $ball to $hall
@create #-1 named stool
@move $stool to $hall
@program run
{n} = args;
$hall.visits = $attic.visits = 0;
for i in [1..n]
  move($ball, $attic);
  move($ball, $hall);
endfor
return $hall.visits + 1000 * $attic.visits;
.
