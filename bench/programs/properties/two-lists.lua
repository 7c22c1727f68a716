local mapping = {}

local function place(l, key)
    for i, k in ipairs(l) do
        if k == key then
            return i
        end
    end
end

function mapping:get(key)
    local i = place(self.keys, key)
    return i and self.values[i] or 0
end

function mapping:set(key, value)
    local i = place(self.keys, key)
    if i then
        self.values[i] = value
    else
        self.keys[#self.keys + 1] = key
        self.values[#self.values + 1] = value
    end
end

return function(n)
    local m = mapping
    m.keys, m.values = {}, {}
    local names = {"gold", "silver", "copper", "iron", "tin"}
    for i = 1, n do
        local name = names[i % 5 + 1]
        m:set(name, m:get(name) + i)
    end
    return m:get("tin")
end
