local function valid(what)
    return what ~= nil
end

local kinds = {}

function kinds:isa(what, kind)
    while valid(what) do
        if what == kind then
            return 1
        end
        what = what.parent
    end
    return 0
end

local kind_1 = {}
local kind_5 = {parent = {parent = {parent = {parent = kind_1}}}}

return function(n)
    local x = 0
    for i = 1, n do
        x = x + kinds:isa(kind_5, kind_1) + kinds:isa(kind_5, kinds)
    end
    return x
end
