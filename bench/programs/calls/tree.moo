@turns 15 the sum of a tree of 15 nodes, lists in lists
@create #-1 named tree
@program $tree:grow
{depth} = args;
if (depth == 0)
  return {};
endif
return {this:grow(depth - 1), depth, this:grow(depth - 1)};
.
@program $tree:sum
{tree} = args;
if (!tree)
  return 0;
endif
{left, value, right} = tree;
return this:sum(left) + value + this:sum(right);
.
@program run
{n} = args;
tree = $tree:grow(4);
x = 0;
for i in [1..n]
  x = x + $tree:sum(tree);
endfor
return x;
.
