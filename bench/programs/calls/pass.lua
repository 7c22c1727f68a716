local Base = {}
Base.__index = Base

function Base:rank(a)
    return a
end

local Middle = setmetatable({}, Base)
Middle.__index = Middle

function Middle:rank(...)
    return Base.rank(self, ...) + 1
end

local Upper = setmetatable({}, Middle)
Upper.__index = Upper

function Upper:rank(a)
    return Middle.rank(self, a) + 2
end

local upper = setmetatable({}, Upper)

return function(n)
    local x = 0
    for i = 1, n do
        x = x + upper:rank(i)
    end
    return x
end
