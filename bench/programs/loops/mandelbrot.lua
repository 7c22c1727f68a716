local function div(a, b)
    return a >= 0 and a // b or -(-a // b)
end

return function(n)
    local total = 0
    for row = 1, n do
        local ci = row % 16 * 32
        for column = 1, 8 do
            local cr = column * 64 - 512
            local zr, zi, steps = 0, 0, 0
            while steps < 12 and zr * zr + zi * zi < 262144 do
                local t = zr * zr - zi * zi
                zi = div(zr * zi, 128) + ci
                zr = div(t, 256) + cr
                steps = steps + 1
            end
            total = total + steps
        end
    end
    return total
end
