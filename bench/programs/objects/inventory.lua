local bearer = {contents = {}}

function bearer:inventory()
    if #self.contents == 0 then
        return {"You are empty-handed."}
    end
    local lines = {"Carrying:"}
    local total = 0
    for _, o in ipairs(self.contents) do
        lines[#lines + 1] = "  " .. o:inventory_line() .. " (" .. o.weight .. ")"
        total = total + o.weight
    end
    lines[#lines + 1] = "  " .. total .. " in all"
    return lines
end

local Borne = {weight = 1, worn = false}
Borne.__index = Borne

function Borne:inventory_line()
    return self.name .. (self.worn and " (worn)" or "")
end

local function borne(name, weight, worn)
    return setmetatable({name = name, weight = weight, worn = worn}, Borne)
end

bearer.contents = {borne("rope"), borne("torch", 3), borne("scarf", nil, true), borne("map"), borne("bread", 2)}

return function(n)
    local x = 0
    for i = 1, n do
        for _, line in ipairs(bearer:inventory()) do
            x = x + #line
        end
    end
    return x
end
