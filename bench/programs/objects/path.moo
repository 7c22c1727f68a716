@turns 30 the way through eight places by their exits, the nearest first
@create #-1 named site_kind
@property $site_kind.exits {}
@create $site_kind named site_1
@create $site_kind named site_2
@create $site_kind named site_3
@create $site_kind named site_4
@create $site_kind named site_5
@create $site_kind named site_6
@create $site_kind named site_7
@create $site_kind named site_8
@set $site_1.exits to {$site_2, $site_3}
@set $site_2.exits to {$site_1, $site_4}
@set $site_3.exits to {$site_1, $site_5, $site_6}
@set $site_4.exits to {$site_2, $site_5}
@set $site_5.exits to {$site_3, $site_4, $site_7}
@set $site_6.exits to {$site_3}
@set $site_7.exits to {$site_5, $site_8}
@set $site_8.exits to {$site_7}
@program $site_kind:distance
{goal} = args;
seen = {this};
steps = {0};
at = 1;
while (at <= length(seen))
  if (seen[at] == goal)
    return steps[at];
  endif
  for next in (seen[at].exits)
    if (!(next in seen))
      seen = {@seen, next};
      steps = {@steps, steps[at] + 1};
    endif
  endfor
  at = at + 1;
endwhile
return -1;
.
@program run
{n} = args;
x = 0;
for i in [1..n]
  x = x + $site_1:distance($site_8);
endfor
return x;
.
