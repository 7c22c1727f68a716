local shelf = {name = "shelf", contents = {}}
local cup = {name = "cup", contents = {}, location = shelf}
shelf.contents[1] = cup

return function(n)
    local o = cup
    local x = 0
    for i = 1, n do
        local place = o.location
        x = x + #place.contents + #o.name + (place.name == "shelf" and 1 or 0)
    end
    return x
end
