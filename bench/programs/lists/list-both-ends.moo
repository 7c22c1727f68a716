@turns 25 a list of forty, built at both ends by turns
@program run
{n} = args;
x = 0;
for j in [1..n]
  l = {};
  for i in [1..40]
    if (i % 2)
      l = listinsert(l, i);
    else
      l = listappend(l, i);
    endif
  endfor
  x = x + l[1] + l[$];
endfor
return x;
.
