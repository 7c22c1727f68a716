@turns 500 an object's name, location and contents
@create #-1 named shelf
@create #-1 named cup
@move $cup to $shelf
@program run
{n} = args;
o = $cup;
x = 0;
for i in [1..n]
  place = o.location;
  x = x + length(place.contents) + length(o.name) + (place.name == "shelf");
endfor
return x;
.
