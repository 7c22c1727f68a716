"""Hostile programs that run to their end: how each ends, and whether the server goes on."""
import os
import program, programs, world

HEADS = ["Program", "By", "Seconds", "Megabytes", "Ended"]
OUT, PERM, MAXREC = "Task ran out of ticks", "Permission denied", "Too many verb calls"
STRING = programs.STRING
REPEAT = "player:v();"
# Things in the room that share their aliases.
ALIASES = ('l={"a"};while(length(l)<240000)l={@l,@l};endwhile l={@l,@l[1..499990-length(l)]};'
           'i=0;while(i<100)i=i+1;c=create(#-1);add_property(c,"aliases",l,{player,"r"});move(c,#2);endwhile')


def coded(name, line):
    """Gives the player a verb of this program."""
    return f'add_verb(player,{{player,"rxd","{name}"}},{{"this","none","this"}});set_verb_code(player,"{name}",{{"{line}"}});'


# A name, the number of who types it, what is typed after `eval`, or a piece of bytes, and what has to be printed.
PROGRAMS = [
    ("`while (1) endwhile`", 4, ["while(1)endwhile"], OUT),
    ("calls of itself, until no frame is left", 4, [coded("v", "return this:v();") + REPEAT], MAXREC),
    ("calls of itself, caught, again and again", 4, [coded("v", "while(1)`this:v() ! ANY';endwhile") + REPEAT], OUT),
    ("a list joined with itself past the weight", 4, ["l={1};while(1)`l={@l,@l} ! ANY';endwhile"], OUT),
    ("a list in a list past the depth", 4, ["l={};c=0;while(1)`l={l} ! ANY => c=c+1';endwhile"], OUT),
    ("a list of 200 levels printed", 4, ["l={};i=0;while(i<197)l={l};i=i+1;endwhile notify(player,toliteral(l));"], "{{{{"),
    ("160,000 lines of notices, in 20 commands", 4, ['while(1)notify(player,"");endwhile'] * 20, OUT),
    ("one piece: a million lines of notices", 4, [b"y\n" * program.ENDS], OUT),
    ("recycles itself, and goes on", 4, ["x=recycle(player);player:v();notify(player,player.name);"], "*** Recycled ***"),
    ("moves its room into itself", 4, [coded("accept", "return 1;") + "move(#2,player);"], "Recursive move"),
    ("moves itself to and fro", 4, ["while(1)move(player,#-1);move(player,#2);endwhile"], OUT),
    ("`exitfunc` that moves, called by `move`", 4, ["c=create(#-1);add_verb(c,{player,\"rxd\",\"exitfunc enterfunc accept\"},{\"this\",\"none\",\"this\"});"
     "set_verb_code(c,\"exitfunc\",{\"if(verb==\\\"accept\\\")return 1;endif move(args[1],#-1);move(args[1],this);return 1;\"});move(player,c);move(player,#-1);"], MAXREC),
    ("`recycle` that recycles itself", 4, ["c=create(#-1);add_verb(c,{player,\"rxd\",\"recycle\"},{\"this\",\"none\",\"this\"});set_verb_code(c,\"recycle\",{\"recycle(this);\"});recycle(c);"], MAXREC),
    ("boots itself in a loop", 4, ["while(1)boot_player(player);endwhile"], "*** Disconnected ***"),
    ("boots, sends and shuts down for others", 4, ["boot_player(#3);", "notify(#3,\"x\");", "shutdown();", "dump_database();", "server_log(\"x\");"], PERM),
    ("20,000 objects asked for", 4, ["while(1)create(#-1);endwhile"], OUT),
    (f"one piece: {program.ENDS} commands of a loop each", 4, [b"x\n" * program.ENDS], OUT),
    ("a `do_command` that shuts down", 3, ["add_verb(#0,{player,\"rxd\",\"do_command\"},{\"this\",\"none\",\"this\"});set_verb_code(#0,\"do_command\",{\"shutdown();\"});", "x"], "*** Shutting down ***\nrefused: Closed"),
    ("a `checkpoint_started` that recycles all", 3, ["add_verb(#0,{player,\"rxd\",\"checkpoint_started\"},{\"this\",\"none\",\"this\"});"
     "set_verb_code(#0,\"checkpoint_started\",{\"for o in [#0..max_object()]recycle(o);endfor\"});dump_database();"], "*** Recycled ***"),
]

# With 1 GB of address space: a program that asks for more ends the server, with status 4.
WANTING = [
    ("`notify` of 1 MB without end", [STRING + "while(1)notify(player,s);endwhile"]),
    ("variables with 1 MB of their own each", [STRING + 'add_property(player,"p",s,{player,"r"});t="";i=0;while(i<2000)i=i+1;t=tostr(t,"v",i,"=player.p[2..$];");endwhile eval(t);']),
    ("3,000 properties that share 1 MB, and a checkpoint", [STRING + 'i=0;while(i<3000)i=i+1;add_property(player,tostr("p",i),s,{player,"r"});endwhile', "return 1+1;", "__checkpoint__"]),
]

# Over the starter world, in one piece: who types it, and the line that it repeats.
STARTER = [
    ("a stranger's lines, as many as a piece holds", "anybody", [], "x"),
    ("the same of empty lines, each answered by the login screen", "anybody", [], ""),
    ("the same of `connect x y`", "anybody", [], "connect x y"),
    ("a guest's `look`", "player", ["connect guest"], "look"),
    ("a guest's `@who`", "player", ["connect guest"], "@who"),
    ("a guest's `say x`", "player", ["connect guest"], "say x"),
    ("a guest's `examine basket`", "player", ["connect guest"], "examine basket"),
]


def typed(who, lines):
    events = f"open 1\nline 1 #{who}\n"
    for line in lines:
        events += f"bytes 1 {line.hex()}\n" if isinstance(line, bytes) else f"line 1 eval {line}\n"
    return events


def main(folder):
    path = os.path.join(folder, "whole.db")
    things = programs.things_of("small")
    things[4].verbs.append(world.verb("x", "while(1)endwhile", 4, "rd", True))
    things[4].verbs.append(world.verb("y", 'while(1)notify(player,"");endwhile', 4, "rd", True))
    with open(path, "w") as file:
        file.write(world.text(things))
    empty = program.script(path, typed(4, []))
    rows, is_well = [], True
    for name, who, lines, wanted in PROGRAMS:
        run = program.script(path, typed(who, lines) + "flush\n" * 8)
        status = 5 if "refused" in wanted else 0
        fits = run.status == status and wanted in run.output
        by = "programmer" if who == 4 else "wizard"
        rows.append((name, by, f"{max(run.seconds - empty.seconds, 0):.3g}", f"{run.megabytes:.0f}", f"as expected, status {status}" if fits else f"WRONG: status {run.status}, {run.output[-150:]!r}"))
        is_well &= fits
    for name, lines in WANTING:
        events = typed(4, lines).replace("line 1 eval __checkpoint__", "moment 3600\nflush")
        run = program.script(path, events, room=1 << 30)
        fits = (run.status, run.last()) == (4, "refused: Memory")
        rows.append((name, "programmer", "-", "1 GB at most", "`refused: Memory`, status 4" if fits else f"WRONG: status {run.status}"))
        is_well &= fits
    starter = os.path.join(program.TOP, "worlds", "starter.db")
    for name, by, before, line in STARTER:
        cells, fits = repeated(starter, name, by, before, line)
        rows.append(cells)
        is_well &= fits
    with open(path, "w") as file:
        file.write(world.text(programs.things_of("room of 100,000 things")))
    for name, by, before, times in (
        ("`l x` in a room with 100,000 things", "player", ["#5"], 0),
        ("`l x` once, among 100 things with the same list of 499,990 aliases", "all who are there", ["#4", "eval " + ALIASES], 1),
    ):
        cells, fits = repeated(path, name, by, before, "l x", times)
        rows.append(cells)
        is_well &= fits
    return rows, is_well


def repeated(database, name, by, before, line, times=0):
    """Plays a piece that repeats one line, as often as a piece holds it if no number is given. The lines before it come
    first, and another player logs in after it."""
    begin = "open 1\n" + "".join(f"line 1 {each}\n" for each in before)
    times = times or program.times_in_piece(line)
    piece = (line.encode() + bytes([10])) * times
    empty = program.script(database, begin)
    run = program.script(database, begin + f"bytes 1 {piece.hex()}\nopen 2\nline 2 #4\n")
    fits = run.status == 0 and "\n2: " in run.output
    seconds = f"{max(run.seconds - empty.seconds, 0):.3g}"
    return (f"{name} ({times})", by, seconds, f"{run.megabytes:.0f}", "status 0" if fits else f"WRONG: status {run.status}"), fits
