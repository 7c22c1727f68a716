local Titled = {prefix = ""}
Titled.__index = Titled

function Titled:title()
    return self.name
end

local Holder = setmetatable({}, Titled)
Holder.__index = Holder

function Holder:title()
    return self.prefix .. Titled.title(self)
end

local function titled(name)
    return setmetatable({name = name}, Titled)
end

local function holder(name, prefix)
    return setmetatable({name = name, prefix = prefix}, Holder)
end

local things = {
    titled("titled_1"), titled("titled_2"), titled("titled_3"), holder("titled_4", "old "), titled("titled_5"),
    titled("titled_6"), titled("titled_7"), holder("titled_8", "new "), titled("titled_9"), titled("titled_0"),
}

return function(n)
    local x = 0
    for i = 1, n do
        for _, o in ipairs(things) do
            x = x + #o:title()
        end
    end
    return x
end
