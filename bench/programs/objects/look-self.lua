local Seen = {description_ = "", hidden = false}
Seen.__index = Seen

function Seen:title()
    return self.name
end

function Seen:description()
    return self.description_
end

local player = {output = {}}

local function notify(who, line)
    who.output[#who.output + 1] = line
end

function player:tell(...)
    notify(self, table.concat({...}))
end

local function valid(o)
    return o ~= nil
end

local parlour = setmetatable({name = "parlour", description_ = "A quiet parlour with a fireplace.", dark = false, contents = {}}, Seen)

function parlour:look_self(brief)
    player:tell(self:title())
    if not brief then
        player:tell(self:description())
    end
    if not self.dark then
        local others = {}
        for _, o in ipairs(self.contents) do
            if o ~= player then
                others[#others + 1] = o
            end
        end
        self:tell_contents(others)
    end
end

function parlour:tell_contents(things)
    local names = {}
    for _, o in ipairs(things) do
        if valid(o) and not o.hidden then
            names[#names + 1] = "a " .. o:title()
        end
    end
    if #names > 0 then
        local line = "You see " .. names[1]
        for k = 2, #names do
            line = line .. (k == #names and " and " or ", ") .. names[k]
        end
        player:tell(line, " here.")
    end
end

for i, name in ipairs({"clock", "sofa", "carpet", "statue", "spider", "vase", "piano", "candle", "basket", "cat"}) do
    parlour.contents[i] = setmetatable({name = name, hidden = name == "spider"}, Seen)
end

return function(n)
    player.output = {}
    for i = 1, n do
        parlour:look_self()
    end
    return n
end
