local function thing(...)
    return {aliases = {...}}
end

local nothing, ambiguous, failed = thing(), thing(), thing()
local things = {
    thing("brass lamp", "lamp"),
    thing("leather bag", "bag"),
    thing("wooden chest", "chest"),
    thing("iron key", "key"),
    thing("old book", "book"),
    thing("oak table", "table"),
}

local matching = {}

local function has(l, e)
    for _, v in ipairs(l) do
        if v == e then
            return true
        end
    end
    return false
end

function matching:match(subject, objects)
    local whole, begun = nothing, nothing
    for _, o in ipairs(objects) do
        if has(o.aliases, subject) then
            if whole ~= nothing then
                return ambiguous
            end
            whole = o
        elseif whole == nothing then
            for _, alias in ipairs(o.aliases) do
                if string.find(alias, subject, 1, true) == 1 then
                    begun = (begun == nothing or begun == o) and o or ambiguous
                end
            end
        end
    end
    if whole ~= nothing then
        return whole
    end
    return begun == ambiguous and failed or begun
end

return function(n)
    local objects = things
    local x = 0
    for i = 1, n do
        local a = matching:match("key", objects)
        local b = matching:match("wood", objects)
        local c = matching:match("sword", objects)
        x = x + (a == things[4] and 1 or 0) + (b == things[3] and 2 or 0) + (c == nothing and 4 or 0)
    end
    return x
end
