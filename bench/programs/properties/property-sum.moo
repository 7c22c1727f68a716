@turns 600 five objects' properties, summed
@create #-1 named heavy_kind
@property $heavy_kind.weight 1
@create $heavy_kind named heavy_1
@set $heavy_1.weight to 3
@create $heavy_kind named heavy_2
@set $heavy_2.weight to 5
@create $heavy_kind named heavy_3
@create $heavy_kind named heavy_4
@set $heavy_4.weight to 7
@create $heavy_kind named heavy_5
@program run
{n} = args;
things = {$heavy_1, $heavy_2, $heavy_3, $heavy_4, $heavy_5};
x = 0;
for i in [1..n]
  for o in (things)
    x = x + o.weight;
  endfor
endfor
return x;
.
