@turns 250 a map as two lists of keys and values: two reads and a change
@create #-1 named mapping
@property $mapping.keys {}
@property $mapping.values {}
@program $mapping:get
{key} = args;
i = key in this.keys;
return i ? this.values[i] | 0;
.
@program $mapping:set
{key, value} = args;
if (i = key in this.keys)
  this.values[i] = value;
else
  this.keys = {@this.keys, key};
  this.values = {@this.values, value};
endif
.
@program run
{n} = args;
m = $mapping;
m.keys = m.values = {};
names = {"gold", "silver", "copper", "iron", "tin"};
for i in [1..n]
  name = names[i % 5 + 1];
  m:set(name, m:get(name) + i);
endfor
return m:get("tin");
.
