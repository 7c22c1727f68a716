return function(n)
    local x = 0
    for i = 1, n do
        local w
        if i % 3 == 0 then
            if i % 5 == 0 then
                w = "fizzbuzz"
            else
                w = "fizz"
            end
        else
            w = i % 5 == 0 and "buzz" or ""
        end
        x = x + (w ~= "" and #w or i)
    end
    return x
end
