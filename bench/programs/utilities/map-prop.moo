@turns 150 a property, by its name, of each of five objects
@create #-1 named mapped_kind
@property $mapped_kind.owner_name "nobody"
@create $mapped_kind named mapped_1
@create $mapped_kind named mapped_2
@set $mapped_2.owner_name to "Frances"
@create $mapped_kind named mapped_3
@create $mapped_kind named mapped_4
@set $mapped_4.owner_name to "Bob"
@create $mapped_kind named mapped_5
@program $mapped_kind:map_prop
{objects, prop} = args;
values = {};
for o in (objects)
  values = {@values, o.(prop)};
endfor
return values;
.
@program run
{n} = args;
objects = {$mapped_1, $mapped_2, $mapped_3, $mapped_4, $mapped_5};
x = 0;
for i in [1..n]
  x = x + length(tostr(@$mapped_kind:map_prop(objects, "owner_name")));
endfor
return x;
.
