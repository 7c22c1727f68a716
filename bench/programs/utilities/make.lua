local lists = {}

local function joined(a, b)
    return table.move(b, 1, #b, #a + 1, table.move(a, 1, #a, 1, {}))
end

function lists:make(n, elt)
    elt = elt or 0
    if n < 0 then
        error("E_INVARG")
    end
    local ret = {}
    local build = {elt}
    while true do
        if n % 2 == 1 then
            ret = joined(ret, build)
        end
        n = n // 2
        if n > 0 then
            build = joined(build, build)
        else
            return ret
        end
    end
end

return function(n)
    local x = 0
    for i = 1, n do
        x = x + #lists:make(37)
    end
    return x
end
