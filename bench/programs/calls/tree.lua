local trees = {}

function trees:grow(depth)
    if depth == 0 then
        return {}
    end
    return {self:grow(depth - 1), depth, self:grow(depth - 1)}
end

function trees:sum(tree)
    if #tree == 0 then
        return 0
    end
    local left, value, right = table.unpack(tree)
    return self:sum(left) + value + self:sum(right)
end

return function(n)
    local tree = trees:grow(4)
    local x = 0
    for i = 1, n do
        x = x + trees:sum(tree)
    end
    return x
end
