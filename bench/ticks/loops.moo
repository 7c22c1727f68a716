while~i = 0; while (i < 4000) i = i + 1; endwhile
arithmetic~x = 0; i = 0; while (i < 4000) x = x + i * 2 % 7; i = i + 1; endwhile
for-range~for i in [1..4000] x = i; endfor
for-list~l = {}; for i in [1..100] l = {@l, i}; endfor for j in [1..40] for x in (l) y = x; endfor endfor
index-read~l = {}; for i in [1..100] l = {@l, i}; endfor i = 0; while (i < 4000) x = l[i % 100 + 1]; i = i + 1; endwhile
index-write~l = {}; for i in [1..100] l = {@l, i}; endfor i = 0; while (i < 4000) l[i % 100 + 1] = i; i = i + 1; endwhile
list-append~j = 0; while (j < 40) l = {}; i = 0; while (i < 100) l = {@l, i}; i = i + 1; endwhile j = j + 1; endwhile
string-append~j = 0; while (j < 40) s = ""; i = 0; while (i < 100) s = s + "x"; i = i + 1; endwhile j = j + 1; endwhile
property-read~i = 0; while (i < 4000) x = #0.size; i = i + 1; endwhile
property-write~i = 0; while (i < 4000) #0.size = i; i = i + 1; endwhile
verb-call~i = 0; while (i < 4000) x = #0:id(i); i = i + 1; endwhile
verb-statements~i = 0; while (i < 4000) x = #0:kept(i); i = i + 1; endwhile
length~l = {1, 2, 3}; i = 0; while (i < 4000) x = length(l); i = i + 1; endwhile
listappend~j = 0; while (j < 40) l = {}; i = 0; while (i < 100) l = listappend(l, i); i = i + 1; endwhile j = j + 1; endwhile
strsub~i = 0; while (i < 4000) x = strsub("the quick brown fox", "o", "0"); i = i + 1; endwhile
create-recycle~i = 0; while (i < 4000) o = create(#0); recycle(o); i = i + 1; endwhile
if-else~x = 0; i = 0; while (i < 4000) if (i % 2 == 0) x = x + 1; else x = x - 1; endif i = i + 1; endwhile
if-and~x = 0; i = 0; while (i < 4000) if (i > 0 && i < 2000) x = x + 1; endif i = i + 1; endwhile
choice~i = 0; while (i < 4000) x = i < 2000 ? 1 | 2; i = i + 1; endwhile
long-names~result_value = 0; counter_number = 0; while (counter_number < 4000) result_value = result_value + counter_number; counter_number = counter_number + 1; endwhile
typeof~x = 0; i = 0; while (i < 4000) if (typeof(i) == 0) x = i; endif i = i + 1; endwhile
least~x = 0; i = 0; while (i < 4000) x = min(i, 7); i = i + 1; endwhile
grid~m = {{1, 2, 3}, {4, 5, 6}, {7, 8, 9}}; x = 0; i = 0; while (i < 4000) x = x + m[i % 3 + 1][2]; i = i + 1; endwhile
characters~s = "the quick brown fox"; x = 0; i = 0; while (i < 4000) if (s[i % 19 + 1] == "o") x = i; endif i = i + 1; endwhile
scatter~l = {1, 2}; i = 0; while (i < 4000) {a, b} = l; i = i + 1; endwhile
many-properties~i = 0; while (i < 4000) x = #1.property_20; i = i + 1; endwhile
new-list~i = 0; while (i < 4000) x = {i, 2, 3}; i = i + 1; endwhile
last~l = {1, 2, 3, 4, 5}; i = 0; while (i < 4000) x = l[$]; i = i + 1; endwhile
part~l = {1, 2, 3, 4, 5}; i = 0; while (i < 4000) x = l[2..$]; i = i + 1; endwhile
