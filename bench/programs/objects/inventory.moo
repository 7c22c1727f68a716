@turns 40 a line for each of five things that somebody carries, with its weight
@create #-1 named bearer
@program $bearer:inventory
if (!this.contents)
  return {"You are empty-handed."};
endif
lines = {"Carrying:"};
total = 0;
for o in (this.contents)
  lines = {@lines, tostr("  ", o:inventory_line(), " (", o.weight, ")")};
  total = total + o.weight;
endfor
return {@lines, tostr("  ", total, " in all")};
.
@create #-1 named borne_kind
@property $borne_kind.weight 1
@property $borne_kind.worn 0
@program $borne_kind:inventory_line
return this.name + (this.worn ? " (worn)" | "");
.
@create $borne_kind named rope
@move $rope to $bearer
@create $borne_kind named torch
@set $torch.weight to 3
@move $torch to $bearer
@create $borne_kind named scarf
@set $scarf.worn to 1
@move $scarf to $bearer
@create $borne_kind named map
@move $map to $bearer
@create $borne_kind named bread
@set $bread.weight to 2
@move $bread to $bearer
@program run
{n} = args;
x = 0;
for i in [1..n]
  for line in ($bearer:inventory())
    x = x + length(line);
  endfor
endfor
return x;
.
