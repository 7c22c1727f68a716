local idle = {}

function idle:none() end

return function(n)
    local o = idle
    for i = 1, n do
        o:none()
    end
    return n
end
