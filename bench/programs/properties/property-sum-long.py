class Stocked:
    description = "A crate."
    take_succeeded_message = "Taken."
    remaining_stock_count = 1
    remaining_stock_limit = 9
    drop_succeeded_message = "Dropped."
    last_stocked_at_time = 0


def stocked(count=None):
    made = Stocked()
    if count is not None:
        made.remaining_stock_count = count
    return made


objects = [stocked(3), stocked(5), stocked(), stocked(7), stocked()]


def run(n):
    things = objects
    total_stock_of_things = 0
    for i in range(1, n + 1):
        for o in things:
            total_stock_of_things = total_stock_of_things + o.remaining_stock_count
    return total_stock_of_things
