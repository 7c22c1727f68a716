@turns 1500 objects and numbers as properties of #0, among all names of this world
@create #-1 named options
@property $options.width 79
@property $options.margin 4
@program run
{n} = args;
x = 0;
for i in [1..n]
  x = x + $options.width - $options.margin;
endfor
return x;
.
