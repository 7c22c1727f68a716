# Prints the database of a world in which each connection is let in as a player of its own, up to `many` of them: connection c as #(c + 3). Their
# parent #1 has the verbs `x` (a line to oneself), `idle` (nothing), `count` (how many are connected) and `everyone` (a line to each).
function head(o, name, flags, parent, child, sibling) {
    print "#" o; print name; print ""; print flags; print 2; print -1; print -1; print -1; print parent; print child; print sibling
}
function verb(name, perms, prep) { print name; print 2; print perms; print prep }
function program(o, v, line) { print "#" o ":" v; print line; print "." }
BEGIN {
    called = 173; typed = 13
    print "** LambdaMOO Database, Format Version 4 **"
    print many + 3; print 7; print 0; print many
    for (o = 3; o < many + 3; o++) print o
    head(0, "System", 0, -1, -1, -1)
    print 3; verb("do_login_command", called, -1); verb("user_connected", called, -1); verb("user_client_disconnected", called, -1)
    print 0; print 0
    head(1, "Player", 0, -1, many ? 3 : -1, -1)
    print 4; verb("x", typed, -1); verb("idle", typed, -1); verb("count", typed, -1); verb("everyone", typed, -1)
    print 0; print 0
    head(2, "Wizard", 4, -1, -1, -1)
    print 0; print 0; print 0
    for (o = 3; o < many + 3; o++) { head(o, "p" o, 1, 1, -1, o + 1 < many + 3 ? o + 1 : -1); print 0; print 0; print 0 }
    program(0, 0, "return toobj(1 - toint(player));")
    program(0, 1, "return args[1];")
    program(0, 2, "return args[1];")
    program(1, 0, "notify(player, \"x\");")
    program(1, 1, "return 0;")
    program(1, 2, "return length(connected_players());")
    program(1, 3, "for p in (connected_players()) notify(p, \"x\"); endfor")
    print "0 clocks"; print "0 queued tasks"; print "0 suspended tasks"; print "0 active connections with listeners"
}
