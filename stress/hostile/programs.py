"""Programs of a player with the programmer's flag, each a loop: what one turn of it takes, and what as many turns as
100,000 ticks allow would take. A loop is run for a part of the ticks, next to a run of only what comes before it."""
import os
import program, world

HEADS = ["Program", "Turns", "Milliseconds a turn", "Megabytes", "Turns in 100,000 ticks", "They would take, seconds", "They would hold, GB"]
TICKS = 100_000
# The ticks of a turn of the counting loop without its body, and of `while (1)`.
COUNTING, PLAIN = 9, 2

STRING = 's="x";while(length(s)<500000)s=s+s;endwhile s=s+s[1..(999990-length(s))];'
LIST = 'l={1};while(length(l)<500000)l={@l,@l};endwhile l={@l,@l[1..999980-length(l)]};'
SOURCE = 't="1;";while(length(t)<400000)t=t+t;endwhile '
VERB = 'add_verb(player,{player,"rxd","v"},{"this","none","this"});'
MANY = '{player,"rxd",s},{"this","none","this"}'
# A program with 62,500 variables.
VARIABLES = 'b="";i=0;while(i<250)i=i+1;b=tostr(b,"?",i,";");endwhile t="return 0;";i=0;while(i<250)i=i+1;t=t+strsub(b,"?",tostr("v",i,"_"));endwhile '
NAMES = 's="a ";while(length(s)<500000)s=s+s;endwhile i=0;while(i<100)i=i+1;add_verb(player,' + MANY + ');endwhile '
# 1,000 verbs with names of 127 bytes each, of which the text before `while` is the first pattern.
ALIKE = 'while(length(s)<125)s=s+%s;endwhile i=0;while(i<1000)i=i+1;add_verb(player,' + MANY + ');endwhile '
ABBREVIATED = 's="a*";' + ALIKE % '"b"'
OPEN = 's="a*";' + ALIKE % '" a*"'

# By world: a name, what comes before the loop, its body, and how many ticks it runs.
PROGRAMS = {
    "small": [
        ("nothing", "", "", 50_000),
        ("two strings of 1 MB joined", STRING, 's+"a";', 5_000),
        ("two strings of 1 MB `==`", STRING + 't=s+"";', "s==t;", 2_000),
        ("`index`, letters folded, in 1 MB", STRING, 'index(s,"z");', 500),
        ("`index`, exact, in 1 MB", STRING, 'index(s,"z",1);', 2_000),
        ("`rindex`, folded, of half of 1 MB", STRING + 't="z"+s[1..500000];', "rindex(s,t);", 200),
        ("`strsub` of each byte of 1 MB", STRING, 'strsub(s,"x","y");', 100),
        ("`tostr` of 1 MB", STRING, "tostr(s);", 2_000),
        ("`toliteral` of 300,000 elements", LIST + "l=l[1..300000];", "toliteral(l);", 200),
        ("two lists of 999,980 elements `==`", LIST + "m={@l};", "l==m;", 200),
        ("`in` a list of 999,980", LIST, "5 in l;", 200),
        ("`setadd` to 999,980", LIST, "setadd(l,7);", 100),
        ("`setremove` from 999,980", LIST, "setremove(l,1);", 100),
        ("`listinsert` at the front of 999,980", LIST, "listinsert(l,1);", 100),
        ("a list of 999,980 copied for one place", LIST, "m=l;m[1]=2;", 200),
        ("`l[1] = 2` of 999,980", LIST, "l[1]=2;", 1_000),
        ("`l[1][1] = 2`, a list within a list", LIST + "l={l[1..999000]};", "l[1][1]=2;", 200),
        ("`player.p[1] = 2` of 999,980", LIST + 'add_property(player,"p",l,{player,"r"});l=0;', "player.p[1]=2;", 200),
        ("`{@l, 1}` of 999,980", LIST, "{@l,1};", 200),
        ("`l[2..$]` of 999,980", LIST, "l[2..$];", 200),
        ("`{f, @g} = l` of 999,980", LIST, "{f,@g}=l;", 200),
        ("`max(@l)` of 999,980", LIST, "max(@l);", 200),
        ("`player:v(@l)` of 999,980", LIST + VERB, "player:v(@l);", 200),
        ("`s[1] = \"y\"` of 1 MB", STRING, 's[1]="y";', 2_000),
        ("`eval` of a text of 524,288 bytes", SOURCE, "`eval(t[1..2000]+\"0=0;\"+t) ! ANY';", 100),
        ("`set_verb_code` of 524,288 bytes", SOURCE + VERB, 'set_verb_code(player,"v",{t});', 50),
        ("a new verb of 524,288 bytes each turn", SOURCE, VERB + 'set_verb_code(player,length(verbs(player)),{t});', 100),
        ("`verb_code` of 262,144 statements", SOURCE + VERB + 'set_verb_code(player,"v",{t});', 'verb_code(player,"v");', 50),
        ("`notify` of 1 MB", STRING, "notify(player,s);", 1_000),
        ("`notify` of nothing", "", 'notify(player,"");', 40_000),
        ("a property of 1 MB each turn", STRING, 'add_property(player,tostr("p",c),s+"a",{player,"r"});', 2_000),
        ("a property that shares 1 MB each turn", STRING, 'add_property(player,tostr("p",c),s,{player,"r"});', 5_000),
        ("a call of a verb with 62,500 variables", VARIABLES + VERB + 'set_verb_code(player,"v",{t});', "player:v();", 1_000),
        ("a property that isn't there, among 50 with names of 1 MB", STRING + 'i=0;while(i<50)i=i+1;add_property(player,tostr(s[1..999980],100+i),0,{player,"r"});endwhile t=s[1..999980]+"zzz";',
         "`player.(t) ! ANY';", 50),
        ("a call among 100 verbs that share 1 MB of names", NAMES, "`player:zz() ! ANY';", 50),
        ("a verb renamed among 1,000 with abbreviations of 125 letters", ABBREVIATED, 'set_verb_info(player,1,{player,"rxd",s});', 200),
        ("a verb renamed among 1,000 with 42 names each that end in a star", OPEN, 'set_verb_info(player,1,{player,"rxd",s});', 200),
    ],
    "room of 100,000 things": [
        ("`contents` of 100,000", "", "#2.contents;", 500),
        ("`move` out of it and in again", "", "move(#50000,#-1);move(#50000,#2);", 5_000),
    ],
    "parent of 100,000 children": [
        ("`children` of 100,000", "", "children(#6);", 500),
        ("`add_property` above 100,000", "", 'add_property(#6,tostr("p",c),0,{player,"r"});', 100),
        ("`chparent` of 100,000, to and fro", "", "chparent(#6,#-1);chparent(#6,#1);", 200),
        ("`create` among 100,000", "", "create(#6);", 1_000),
    ],
    "chain of 1,000 parents with 1,000 properties": [
        ("the last property of the last one", "", "#1005.p999;", 2_000),
        ("a verb that isn't there", "", "`#1005:zz() ! ANY';", 2_000),
        ("`add_property` to the first", "", 'add_property(#6,tostr("q",c),0,{player,"r"});', 200),
        ("`chparent` of the first, to and fro", "", "chparent(#6,#-1);chparent(#6,#1);", 200),
        ("`create` under the last", "", "create(#1005);", 1_000),
    ],
}

# What these make stays, as a value, a program or bytes that are to be sent.
HOLD = {
    "a new verb of 524,288 bytes each turn",
    "`notify` of 1 MB",
    "a property of 1 MB each turn",
    "`add_property` above 100,000",
    "`add_property` to the first",
}


def things_of(name):
    things = world.small()
    things[2].verbs.append(world.verb("accept", "return 1;", 4))
    count = 0 if name == "small" else 1_000 if name.startswith("chain") else 100_000
    for number in range(count):
        thing = world.Thing(f"thing{number}", world.READ | world.FERTILE, 4, 1)
        if name.startswith("room"):
            thing.location = 2
        if name.startswith("parent") and number:
            thing.parent = 6
        if name.startswith("chain"):
            thing.parent = 5 + number if number else 1
            thing.properties = [] if number else [(f"p{place}", [0, place]) for place in range(1_000)]
        things.append(thing)
    return things


def typed(text):
    return f"open 1\nline 1 #4\nline 1 eval {text}\nopen 2\nline 2 #5\n"


def measured(database, before, body, ticks):
    """Returns the turns that a loop made, what they took in seconds and megabytes, and the ticks of one. Returns none if it went wrong."""
    first = program.script(database, typed(before + "return {0,ticks_left()};"))
    loop = f"e=ticks_left()-{ticks};c=0;b=ticks_left();while(ticks_left()>e)c=c+1;{body}endwhile return {{c,b-ticks_left()}};"
    second = program.script(database, typed(before + loop))
    if (first.status, second.status) != (0, 0) or not second.output.endswith("2: *** Connected ***\n"):
        return None, second
    told = next((line for line in second.output.splitlines()[::-1] if line.startswith("1: {1, {")), None)
    if told is None:
        return None, second
    turns, used = map(int, told[8:-2].split(", "))
    return (turns, second.seconds - first.seconds, second.megabytes - first.megabytes, second.megabytes, used / turns), second


def row(database, name, before, body, ticks):
    found, run = measured(database, before, body, ticks)
    if found is None:
        return (name, *[""] * 5, f"WRONG: status {run.status}, {run.last()[-100:]}"), False
    turns, seconds, more, peak, each = found
    count = TICKS / (each - COUNTING + PLAIN)
    cells = (turns, f"{1000 * max(seconds, 0) / turns:.3g}", f"{peak:.0f}", f"{count:,.0f}",
             f"{max(seconds, 0) / turns * count:,.2g}" if seconds / turns * count < 100 else f"{seconds / turns * count:,.0f}")
    held = f"{more / turns * count / 1000:.2g}" if name in HOLD else "-"
    return (name, *cells, held), True


def main(folder):
    rows, is_well = [], True
    for name, programs in PROGRAMS.items():
        path = os.path.join(folder, "programs.db")
        with open(path, "w") as file:
            file.write(world.text(things_of(name)))
        if name != "small":
            rows.append((f"**{name}**", *[""] * 6))
        for each in programs:
            cells, fits = row(path, *each)
            rows.append(cells)
            is_well &= fits
    return rows, is_well
