start~
while~i = 0; while (i < 1000) i = i + 1; endwhile
own-short~i = 0; while (i < 1000) x = #2.near; i = i + 1; endwhile
own-long~i = 0; while (i < 1000) x = #2.first_disconnect_time; i = i + 1; endwhile
row-short~i = 0; while (i < 1000) x = #10.prop_10_99; i = i + 1; endwhile
row-long~i = 0; while (i < 1000) x = #10.property_of_object_10_98; i = i + 1; endwhile
above-short~i = 0; while (i < 1000) x = #9.distant; i = i + 1; endwhile
above-13~i = 0; while (i < 1000) x = #9.thirteen_lets; i = i + 1; endwhile
above-17~i = 0; while (i < 1000) x = #9.last_connect_time; i = i + 1; endwhile
above-23~i = 0; while (i < 1000) x = #9.object_match_failed_msg; i = i + 1; endwhile
set-short~i = 0; while (i < 1000) #2.near = i; i = i + 1; endwhile
set-long~i = 0; while (i < 1000) #2.first_disconnect_time = i; i = i + 1; endwhile
none-short~i = 0; while (i < 1000) x = `#10.nothing ! E_PROPNF => 0'; i = i + 1; endwhile
none-long~i = 0; while (i < 1000) x = `#10.property_of_object_10_97 ! E_PROPNF => 0'; i = i + 1; endwhile
none-few~i = 0; while (i < 1000) x = `#2.nothing ! E_PROPNF => 0'; i = i + 1; endwhile
index~s = "the quick brown fox jumps over the lazy dog"; i = 0; while (i < 1000) x = index(s, "LAZY"); i = i + 1; endwhile
index-none~s = "the quick brown fox jumps over the lazy dog"; i = 0; while (i < 1000) x = index(s, "cat"); i = i + 1; endwhile
index-long~s = "the quick brown fox jumps over the "; for k in [1..6] s = s + s; endfor s = s + "lazy dog"; i = 0; while (i < 1000) x = index(s, "LAZY"); i = i + 1; endwhile
strsub~s = "%N picks up the %d."; i = 0; while (i < 1000) x = strsub(s, "%d", "lamp"); i = i + 1; endwhile
strsub-none~s = "You pick up the old brass lamp and look around."; i = 0; while (i < 1000) x = strsub(s, "%d", "lamp"); i = i + 1; endwhile
equal-same~s = "the quick brown fox jumps"; t = s; i = 0; while (i < 1000) x = s == t; i = i + 1; endwhile
equal-copy~s = "the quick brown fox jumps"; t = "the quick brown " + "fox jumps"; i = 0; while (i < 1000) x = s == t; i = i + 1; endwhile
equal-fold~s = "the quick brown fox jumps"; t = "The Quick Brown Fox Jumps"; i = 0; while (i < 1000) x = s == t; i = i + 1; endwhile
equal-first~s = "the quick brown fox jumps"; t = "she quick brown fox jumps"; i = 0; while (i < 1000) x = s == t; i = i + 1; endwhile
in-list~s = "the quick brown fox jumps"; l = {"one of them", "the quick brown fox jump!", s}; i = 0; while (i < 1000) x = s in l; i = i + 1; endwhile
