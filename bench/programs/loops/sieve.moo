@turns 8 the primes up to 150
@create #-1 named primes
@program $primes:sieve
{limit} = args;
marks = {};
for i in [1..limit]
  marks = {@marks, 1};
endfor
found = {};
for i in [2..limit]
  if (marks[i])
    found = {@found, i};
    k = i * i;
    while (k <= limit)
      marks[k] = 0;
      k = k + i;
    endwhile
  endif
endfor
return found;
.
@program run
{n} = args;
x = 0;
for i in [1..n]
  x = x + length($primes:sieve(150));
endfor
return x;
.
