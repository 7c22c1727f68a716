local english = {}

function english:english_list(things, nothingstr, andstr, commastr, finalcommastr)
    nothingstr, andstr = nothingstr or "nothing", andstr or " and "
    commastr, finalcommastr = commastr or ", ", finalcommastr or ","
    local nthings = #things
    if nthings == 0 then
        return nothingstr
    elseif nthings == 1 then
        return tostring(things[1])
    elseif nthings == 2 then
        return things[1] .. andstr .. things[2]
    else
        local ret = ""
        for k = 1, nthings - 1 do
            if k == nthings - 1 then
                commastr = finalcommastr
            end
            ret = ret .. things[k] .. commastr
        end
        return ret .. andstr .. things[nthings]
    end
end

return function(n)
    local one = {"a lamp"}
    local two = {"a lamp", "a bag"}
    local five = {"a lamp", "a bag", "a chest", "a key", "a book"}
    local x = 0
    for i = 1, n do
        x = x + #english:english_list(one)
        x = x + #english:english_list(two)
        x = x + #english:english_list(five)
    end
    return x
end
