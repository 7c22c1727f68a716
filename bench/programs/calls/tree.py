class Tree:
    def grow(self, depth):
        if depth == 0:
            return []
        return [self.grow(depth - 1), depth, self.grow(depth - 1)]

    def sum(self, tree):
        if not tree:
            return 0
        left, value, right = tree
        return self.sum(left) + value + self.sum(right)


trees = Tree()


def run(n):
    tree = trees.grow(4)
    x = 0
    for i in range(1, n + 1):
        x = x + trees.sum(tree)
    return x
