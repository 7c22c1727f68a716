@turns 60 the titles of ten objects, by a verb that two ancestors have
@create #-1 named titled_kind
@property $titled_kind.prefix ""
@program $titled_kind:title
return this.name;
.
@create $titled_kind named titled_holder
@program $titled_holder:title
return this.prefix + pass();
.
@create $titled_kind named titled_1
@create $titled_kind named titled_2
@create $titled_kind named titled_3
@create $titled_holder named titled_4
@set $titled_4.prefix to "old "
@create $titled_kind named titled_5
@create $titled_kind named titled_6
@create $titled_kind named titled_7
@create $titled_holder named titled_8
@set $titled_8.prefix to "new "
@create $titled_kind named titled_9
@create $titled_kind named titled_0
@program run
{n} = args;
things = {$titled_1, $titled_2, $titled_3, $titled_4, $titled_5, $titled_6, $titled_7, $titled_8, $titled_9, $titled_0};
x = 0;
for i in [1..n]
  for o in (things)
    x = x + length(o:title());
  endfor
endfor
return x;
.
