local padding = {}

function padding:space(count, fill)
    fill = fill or " "
    while #fill < count do
        fill = fill .. fill
    end
    return fill:sub(1, count)
end

function padding:left(text, width)
    text = tostring(text)
    local len = #text
    return len < width and text .. self:space(width - len) or text
end

function padding:right(text, width)
    text = tostring(text)
    local len = #text
    return len < width and self:space(width - len) .. text or text
end

return function(n)
    local x = 0
    for i = 1, n do
        local row = padding:left("brass lamp", 18) .. padding:right(i, 7)
        x = x + #row
    end
    return x
end
