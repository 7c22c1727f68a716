@turns 2000 a property that the fifth object above defines, each with properties of its own; the name has 24 letters
@create #-1 named far_1
@property $far_1.home 1
@property $far_1.object_match_failed_msgs 3
@create $far_1 named far_2
@property $far_2.take_failed_msg "You can't."
@property $far_2.take_succeeded_msg "You take it."
@create $far_2 named far_3
@property $far_3.drop_failed_msg "You can't."
@property $far_3.drop_succeeded_msg "You drop it."
@create $far_3 named far_4
@property $far_4.opened 0
@property $far_4.opaque 1
@create $far_4 named far_5
@property $far_5.key 0
@create $far_5 named far_6
@property $far_6.text {"one"}
@program run
{n} = args;
o = $far_6;
x = 0;
for i in [1..n]
  x = x + o.object_match_failed_msgs;
endfor
return x;
.
