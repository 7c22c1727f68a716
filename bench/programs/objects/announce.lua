local Listening = {}
Listening.__index = Listening

local function has(l, e)
    for _, v in ipairs(l) do
        if v == e then
            return true
        end
    end
    return false
end

function Listening:tell(caller, ...)
    if not has(self.gagged, caller) then
        self.heard = self.heard + #table.concat({...})
    end
end

local square = {contents = {}}

function square:announce(who, ...)
    for _, o in ipairs(self.contents) do
        if o ~= who then
            o:tell(self, ...)
        end
    end
end

for i = 1, 10 do
    square.contents[i] = setmetatable({heard = 0, gagged = {}}, Listening)
end

return function(n)
    local first, fifth = square.contents[1], square.contents[5]
    first.heard, fifth.heard = 0, 0
    for i = 1, n do
        square:announce(first, "Frances", " says, \"", "Good evening.", "\"")
    end
    return fifth.heard + first.heard
end
