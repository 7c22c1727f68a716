@turns 300 an object made, given a property's value and recycled, with its hooks
@create #-1 named made_kind
@property $made_kind.weight 1
@property $made_kind.made 0
@program $made_kind:initialize
this.weight = 2;
.
@program $made_kind:recycle
$made_kind.made = $made_kind.made + this.weight;
.
@program run
{n} = args;
$made_kind.made = 0;
for i in [1..n]
  o = create($made_kind);
  o.name = "thing";
  recycle(o);
endfor
return $made_kind.made;
.
