# Prints a database of one odd shape (`shape`) and size (`many`). Shapes are a chain of parents, of places, or of parents that hand down a property;
# a list of children; objects without anything; properties, verbs or programs of one object. Others are one list as a value, a hundred strings,
# players, and connections.
function head(o, place, inside, parent, child, sibling) {
    print "#" o; print "x"; print ""; print 0; print 0; print place; print inside; print -1; print parent; print child; print sibling
}
function long(n, s) { s = "x"; while (length(s) < n) s = s s; return substr(s, 1, n) }
BEGIN {
    several = shape == "chain" || shape == "places" || shape == "heirs" || shape == "children" || shape == "objects"
    objects = several ? many : 1
    players = shape == "players" ? many : 0
    print "** LambdaMOO Database, Format Version 4 **"
    print objects; print shape == "programs" ? many : 0; print 0; print players
    for (o = 0; o < players; o++) print o
    for (o = 0; o < objects; o++) {
        below = o + 1 < objects ? o + 1 : -1
        if (shape == "chain" || shape == "heirs") head(o, -1, -1, o - 1, below, -1)
        else if (shape == "places") head(o, o - 1, below, -1, -1, -1)
        else if (shape == "children") head(o, -1, -1, o ? 0 : -1, o ? -1 : below, o ? below : -1)
        else head(o, -1, -1, -1, -1, -1)
        verbs = shape == "verbs" || shape == "programs" ? many : 0
        print verbs
        for (v = 0; v < verbs; v++) { print "v" v; print 0; print 173; print -1 }
        properties = shape == "properties" ? many : shape == "string" ? 100 : shape == "list" || (shape == "heirs" && o == 0) ? 1 : 0
        print properties
        for (p = 0; p < properties; p++) print "p" p
        if (shape == "heirs") { print 1; print o ? 5 : 0; if (!o) print 0; print 0; print 5; continue }
        print properties
        for (p = 0; p < properties; p++) {
            if (shape == "list") { print 4; print many; for (i = 0; i < many; i++) { print 0; print i } }
            else if (shape == "string") { print 2; print long(many) }
            else { print 0; print p }
            print 0; print 5
        }
    }
    if (shape == "programs") for (v = 0; v < many; v++) { print "#0:" v; print "return args[1] + " v ";"; print "." }
    print "0 clocks"; print "0 queued tasks"; print "0 suspended tasks"
    who = shape == "connections" ? many : 0
    print who " active connections with listeners"
    for (o = 0; o < who; o++) print o " 0"
}
