@turns 3000 an element of a list read and another set
@program run
{n} = args;
l = {};
for i in [1..100]
  l = {@l, i};
endfor
i = 0;
while (i < n)
  l[i % 100 + 1] = l[i % 50 + 1] + 1;
  i = i + 1;
endwhile
return l[7];
.
