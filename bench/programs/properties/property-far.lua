local function child(parent, fields)
    local made = setmetatable(fields, parent)
    made.__index = made
    return made
end

local far_1 = child(nil, {home = 1, object_match_failed_msgs = 3})
local far_2 = child(far_1, {take_failed_msg = "You can't.", take_succeeded_msg = "You take it."})
local far_3 = child(far_2, {drop_failed_msg = "You can't.", drop_succeeded_msg = "You drop it."})
local far_4 = child(far_3, {opened = 0, opaque = 1})
local far_5 = child(far_4, {key = 0})
local far_6 = child(far_5, {text = {"one"}})

return function(n)
    local o = far_6
    local x = 0
    for i = 1, n do
        x = x + o.object_match_failed_msgs
    end
    return x
end
