"""Holds the verbs of the starter world that some of its commands run, as methods: a method for a verb, a statement for a statement.

Kinds of objects are classes, and other objects are instances. Properties are attributes. #-1 is None."""

import task
from commands import AMBIGUOUS, FAILED, gather, typed
from task import Refusal, connected_seconds, idle_seconds, move, notify
from texts import clock, matching, strings


class Root:
    """The root class, #1."""

    commands = {}

    def __init_subclass__(cls):
        gather(cls)

    def look_self(self, who):
        lines = strings.lines(self.description)
        who.tell_lines(lines if lines else ["You see nothing special about " + strings.the(self.name) + "."], perms=keeper)

    def tell(self, *args, perms):
        return 0

    def tell_lines(self, lines, *, perms):
        return 0

    def announce(self, text, but=(), *, perms):
        return 0

    def noticed(self, who, word, what):
        return 0

    def accept(self, what):
        return 0

    def enterfunc(self, what):
        return 0

    def exitfunc(self, what):
        return 0

    def moveto(self, where, caller, perms):
        if not (caller is self or perms is keeper or system.controls(perms, self)):
            raise Refusal
        if where is not None and not where.accept(self):
            raise Refusal
        return move(self, where)

    def unlocked_for(self, who):
        return self.key is None or self.opens(self, who)

    def opens(self, what, who):
        key = what.key
        if key is None or key is who or system.controls(who, what):
            return 1
        serial = what.key_serial
        return key.location is who and (not serial or serial == key.serial)


class System(Root):
    """The system object, #0."""

    def controls(self, who, what):
        return who is not None and what is not None and (who.wizard or who is what.owner)

    def do_command(self, argstr):
        if task.player.editing:
            raise NotImplementedError("the editor of lines isn't in this port")
        return 0


class Thing(Root):
    """Things that can be carried."""


class Container(Thing):
    """Containers."""


class Board(Thing):
    """Notice boards."""


class Room(Root):
    """Rooms."""

    def accept(self, what):
        if what.is_player:
            return self.unlocked_for(what)
        return len(self.contents) < 300 or what.number <= login.core_end.number

    def announce(self, text, but=(), *, perms):
        if not isinstance(text, str):
            text = str(text)
        if perms is not keeper:
            raise NotImplementedError("programs of others don't announce in this port")
        if text.startswith("#$"):
            text = " " + text
        player = task.player
        if player is not None:
            if (type(player) not in Player.kinds or player.muted[1]) and Player.muted_for(player):
                return
            if player.gagged_by:
                but = [*but, *player.gagged_by]
        for o in self.contents:
            if o.is_player and o not in but:
                notify(o, text)

    def enterfunc(self, what):
        if what.is_player and what.location is self:
            self.look_self(what)

    def look_self(self, who):
        who.tell(self.name, perms=keeper)
        who.tell_lines(strings.lines(self.description), perms=keeper)
        self.look_inside(who)
        self.tell_exits(who)

    def look_inside(self, who):
        things = []
        people = []
        for o in self.contents:
            if not o.is_player:
                things.append(o)
            elif o is not who:
                people.append(o)
        if things:
            who.tell_lines(strings.flow("You see:", strings.names(things)), perms=keeper)
        if people:
            who.tell_lines(strings.wrap(strings.english(strings.names(people)) + (" is here." if len(people) == 1 else " are here.")), perms=keeper)

    def tell_exits(self, who):
        names = []
        for e in self.exits:
            if e is not None:
                name = e.name
                names.append(name[:60] + ".." if len(name) > 60 else name)
        who.tell_lines(strings.flow("Exits:", names) if names else ["There are no exits. (home takes you home.)"], perms=keeper)

    @typed("say")
    def say(self, command):
        player, argstr = command.player, command.argstr
        if player.location is not self:
            return
        if not argstr:
            player.tell("Say what? For example: say Good morning", perms=keeper)
            return
        if not Player.lets_speak(player):
            return
        player.tell("You say, \"", argstr, "\"", perms=keeper)
        self.announce(f'{player.name} says, "{argstr}"', [player], perms=keeper)
        self.noticed(player, "say", argstr)

    def huh(self, command):
        player, argstr = command.player, command.argstr
        text = command.verb + " " + argstr if argstr else command.verb
        e = matching.among(text, self.exits)
        if e is not FAILED and e is not AMBIGUOUS and player.location is self:
            self.lead(e, player, self, keeper)
        elif e is not FAILED:
            player.tell("There is more than one exit that begins so.", perms=keeper)
        else:
            raise NotImplementedError("the hints of $room:huh aren't in this port")

    def lead(self, e, player, caller, perms):
        if caller is not self and not system.controls(perms, player):
            raise Refusal
        if isinstance(e, Exit) and e.source is self:
            return e.move(player, self)
        player.tell("That way leads nowhere any more.", perms=keeper)
        return 0


class Landing(Room):
    """The landing, #2, which has a verb of its own."""

    def noticed(self, who, word, what):
        if word == "say" and frog.location is self and ("frog" in what or "hello" in what or what[-1] == "?"):
            raise NotImplementedError("the frog's answers aren't in this port")


class Exit(Root):
    """Exits."""

    def move(self, who, caller):
        start = who.location
        to = self.dest
        if start is not self.source or not (caller is start or caller is who):
            raise Refusal
        if not isinstance(to, Room):
            who.tell("That way leads nowhere any more.", perms=keeper)
            return 0
        if not self.unlocked_for(who):
            who.tell(Exit.message(self.locked_msg, "It is locked."), perms=keeper)
            return 0
        try:
            who.moveto(to, self, keeper)
        except Refusal:
            who.tell("You can't go there.", perms=keeper)
            return 0
        if who.location is to and to is not start:
            way = self.name in ("north", "south", "east", "west", "northeast", "northwest", "southeast", "southwest", "up", "down", "in", "out",
                                 "n", "s", "e", "w", "ne", "nw", "se", "sw", "u", "d")
            name = who.name if who.is_player or task.player is None else task.player.name + " in " + strings.the(who.name)
            leaves = Exit.message(self.leave_msg, "goes " + self.name + "." if way else "leaves by " + strings.the(self.name) + ".")
            start.announce(f"{name} {leaves}", [who], perms=keeper)
            arrives = Exit.message(self.arrive_msg, "arrives.")
            to.announce(f"{name} {arrives}", [who], perms=keeper)
            start.noticed(who, "go", self)
        return who.location is to

    @staticmethod
    def message(text, otherwise):
        return text if text and isinstance(text, str) and len(text) <= 200 and '"' not in text else otherwise


class Player(Root):
    """Players."""

    connected_at = None

    def tell(self, *args, perms):
        if task.player is not self:
            raise NotImplementedError("nobody tells others anything in this port")
        if perms is not self and perms is not keeper:
            raise NotImplementedError("programs of others don't tell anything in this port")
        text = "".join(args)
        notify(self, " " + text if text.startswith("#$") else text)

    def tell_lines(self, lines, *, perms):
        if task.player is not self:
            raise NotImplementedError("nobody tells others anything in this port")
        if perms is not self and perms is not keeper:
            raise NotImplementedError("programs of others don't tell anything in this port")
        if self.pagelength and len(lines) > self.pagelength:
            n = len(lines)
            self.rest = lines[self.pagelength:500]
            left = min(n, 500) - self.pagelength
            lines = [*lines[:self.pagelength], f"({left} more {'line' if left == 1 else 'lines'}: type  @more)"]
        narrow = self.linelength < 78
        for line in lines:
            if not isinstance(line, str):
                line = str(line)
            if narrow and len(line) > self.linelength:
                for part in strings.wrap(line, self.linelength):
                    notify(self, " " + part if part.startswith("#$") else part)
            else:
                notify(self, " " + line if line.startswith("#$") else line)

    @staticmethod
    def muted_for(who):
        if not isinstance(who, Player):
            return -1
        at, span = who.muted
        since = task.now - at
        return span - since if span and since >= 0 and since < span else 0

    @staticmethod
    def lets_speak(who, whom=None, kind=""):
        if whom is None and type(who) in Player.kinds and not who.muted[1]:
            return 1
        raise NotImplementedError("refusals aren't in this port")

    @typed("l*ook")
    def look(self, command):
        player = command.player
        here = player.location
        if not command.argstr or command.argstr in ("here", "around"):
            if here is None:
                player.tell("You are nowhere. Type home.", perms=keeper)
                return
            if not isinstance(here, Root):
                player.tell(here.name, " isn't a room any more. Type home.", perms=keeper)
                return
            here.look_self(player)
            here.noticed(player, "look", here)
            return
        raise NotImplementedError("looking at a thing isn't in this port")

    @typed("@who who")
    def who(self, command):
        if command.args:
            raise NotImplementedError("@who with names isn't in this port")
        login.who(command.player, [], self)


class Builder(Player):
    """Players who build."""


class Prog(Builder):
    """Players who program."""


class Wiz(Prog):
    """Wizards."""


class Guest(Player):
    """Guests."""


class Login(Root):
    """Login."""

    def who(self, who, people, caller):
        if caller is not self and caller is not who:
            raise Refusal
        notify(who, "Name              Connected    Idle         Place")
        every = people if people else list(task.connected)
        n = len(every)
        blanks = "                  "
        for p in every[:100]:
            name = f"{p.name}{' (wizard)' if p.wizard else ''}{blanks}"
            try:
                idle = idle_seconds(p)
            except ValueError:
                idle = -1
            if idle < 0:
                last = p.last_disconnect
                notify(who, name[:18] + ("isn't connected; left " + clock.text(last) if last else "isn't connected"))
            else:
                since = clock.span(connected_seconds(p)) + blanks
                idle = clock.span(idle) + blanks
                place = p.location.name if p.location is not None else "nowhere"
                notify(who, f"{name[:18]}{since[:13]}{idle[:13]}{place[:60]}")
        if people:
            return
        if n > 100:
            notify(who, f"and {n - 100} more")
        notify(who, "Nobody is connected." if n == 0 else f"{n}{' player is' if n == 1 else ' players are'} connected. It is {clock.text()}.")


KINDS = {"root": Root, "thing": Thing, "container": Container, "board": Board, "room": Room, "exit": Exit,
         "player": Player, "builder": Builder, "prog": Prog, "wiz": Wiz, "guest": Guest}
system, login = System(), Login()
keeper, landing, frog = Root(), Landing(), Thing()
SINGLE = {"login": login, "keeper": keeper, "landing": landing, "frog": frog}
