@turns 500 five objects' properties, summed; the name has 21 letters, and the objects have five others
@create #-1 named stocked_kind
@property $stocked_kind.description "A crate."
@property $stocked_kind.take_succeeded_message "Taken."
@property $stocked_kind.remaining_stock_count 1
@property $stocked_kind.remaining_stock_limit 9
@property $stocked_kind.drop_succeeded_message "Dropped."
@property $stocked_kind.last_stocked_at_time 0
@create $stocked_kind named stocked_1
@set $stocked_1.remaining_stock_count to 3
@create $stocked_kind named stocked_2
@set $stocked_2.remaining_stock_count to 5
@create $stocked_kind named stocked_3
@create $stocked_kind named stocked_4
@set $stocked_4.remaining_stock_count to 7
@create $stocked_kind named stocked_5
@program run
{n} = args;
things = {$stocked_1, $stocked_2, $stocked_3, $stocked_4, $stocked_5};
total_stock_of_things = 0;
for i in [1..n]
  for o in (things)
    total_stock_of_things = total_stock_of_things + o.remaining_stock_count;
  endfor
endfor
return total_stock_of_things;
.
