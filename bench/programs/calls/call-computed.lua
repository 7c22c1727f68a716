local named = {}

function named:first(a)
    return a + 1
end

function named:second(a)
    return a + 2
end

function named:third(a)
    return a + 3
end

return function(n)
    local names = {"first", "second", "third"}
    local x = 0
    for i = 1, n do
        for _, name in ipairs(names) do
            x = x + named[name](named, i)
        end
    end
    return x
end
