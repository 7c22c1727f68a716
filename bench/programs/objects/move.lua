local Place = {}
Place.__index = Place

function Place:accept(what)
    return what ~= self
end

function Place:enterfunc(what)
    self.visits = self.visits + 1
end

function Place:exitfunc(what)
    self.visits = self.visits + 2
end

local function place()
    return setmetatable({contents = {}, visits = 0}, Place)
end

local function thing(at)
    local made = {location = at}
    at.contents[#at.contents + 1] = made
    return made
end

local function move(what, to)
    if not to:accept(what) then
        error("E_NACC")
    end
    local at = to
    while at do
        if at == what then
            error("E_RECMOVE")
        end
        at = at.location
    end
    local old = what.location
    for i, v in ipairs(old.contents) do
        if v == what then
            table.remove(old.contents, i)
            break
        end
    end
    to.contents[#to.contents + 1] = what
    what.location = to
    old:exitfunc(what)
    to:enterfunc(what)
end

local hall, attic = place(), place()
local ball, stool = thing(hall), thing(hall)

return function(n)
    hall.visits, attic.visits = 0, 0
    for i = 1, n do
        move(ball, attic)
        move(ball, hall)
    end
    return hall.visits + 1000 * attic.visits
end
