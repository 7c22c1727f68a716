# Prints the database of a world for bench/names/run. It has six ancestors of twenty properties each, some of them with long names, an object below
# them, and an object whose row has a hundred cells. #1 is a wizard with a verb for each loop of loops.moo.
function head(o, name, flags, parent) {
    print "#" o; print name; print ""; print flags; print 1; print -1; print -1; print -1; print parent; print child[o]; print -1
}
function verb(name, perms) { print name; print 1; print perms; print -1 }
function number(n) { print 0; print n; print 1; print 5 }
function clear() { print 5; print 1; print 5 }
function own_names(o, n,   i) { print n; for (i = 1; i <= n; i++) print named(o, i, n) }
function named(o, i, n) {
    if (i == n && o == 3) return "distant"
    if (i == n - 1 && o == 3) return "last_connect_time"
    if (i == n - 2 && o == 3) return "object_match_failed_msg"
    if (i == n - 3 && o == 3) return "thirteen_lets"
    if (i % 2) return "prop_" o "_" i
    return "property_of_object_" o "_" i
}
BEGIN {
    FS = "~"
    while ((getline line < loops) > 0) { split(line, part, "~"); name[++many] = part[1]; source[many] = part[2] }
    print "** LambdaMOO Database, Format Version 4 **"
    print 11; print many + 1; print 0; print 1; print 1
    for (o = 0; o < 11; o++) child[o] = o >= 3 && o < 9 ? o + 1 : -1
    head(0, "System", 16, -1); print 1; verb("do_login_command", 173); print 0; print 0
    head(1, "Wizard", 7, -1); print many; for (i = 1; i <= many; i++) verb(name[i], 13); print 0; print 0
    head(2, "Own", 16, -1); print 0; print 3; print "near"; print "first_disconnect_time"; print "last_disconnect_time"; print 3; number(1); number(2); number(3)
    for (o = 3; o < 9; o++) {
        head(o, "Ancestor", 16, o == 3 ? -1 : o - 1); print 0; own_names(o, 20)
        print 20 * (o - 2); for (i = 1; i <= 20; i++) number(i); for (i = 21; i <= 20 * (o - 2); i++) clear()
    }
    head(9, "Below", 16, 8); print 0; print 0; print 120; for (i = 1; i <= 120; i++) clear()
    head(10, "Row", 16, -1); print 0; own_names(10, 100); print 100; for (i = 1; i <= 100; i++) number(i)
    print "#0:0"; print "return #1;"; print "."
    for (i = 1; i <= many; i++) { print "#1:" (i - 1); print source[i]; print "."; }
    print "0 clocks"; print "0 queued tasks"; print "0 suspended tasks"; print "0 active connections with listeners"
}
