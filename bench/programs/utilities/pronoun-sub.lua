local gender = {}

local function place(l, e)
    for i, v in ipairs(l) do
        if v == e then
            return i
        end
    end
end

function gender:pronoun_sub(text, who, thing)
    local done = ""
    local i = string.find(text, "%", 1, true)
    while i and i < #text do
        local s = text:sub(i + 1, i + 1)
        local sub
        if s == "%" then
            sub = "%"
        elseif s == "n" then
            sub = who.title
        elseif s == "d" then
            sub = thing.title
        else
            local k = place({"s", "o", "p", "q", "r"}, s)
            if k then
                sub = who[({"ps", "po", "pp", "pq", "pr"})[k]]
            else
                sub = "%" .. s
            end
        end
        done = done .. text:sub(1, i - 1) .. sub
        text = text:sub(i + 2)
        i = string.find(text, "%", 1, true)
    end
    return done .. text
end

local who = {title = "Frances", ps = "she", po = "her", pp = "her", pq = "hers", pr = "herself"}
local thing = {title = "the lamp"}

return function(n)
    local x = 0
    for i = 1, n do
        x = x + #gender:pronoun_sub("%n lifts %d over %p head, and %s hurts %r.", who, thing)
    end
    return x
end
