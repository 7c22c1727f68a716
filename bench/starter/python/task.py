"""Holds what a verb knows of its task (who typed the command, the second, who is connected), and functions of the server."""

player = None
now = 0
connected = []


class Refusal(Exception):
    """What E_PERM, E_NACC and E_RECMOVE are in MOO."""


def notify(who, line):
    """Sends a line to a player."""
    who.output.append(line)


def move(what, where):
    """Moves something for a wizard: the place is asked, and both places are called."""
    where.accept(what)
    place = where
    while place is not None:
        if place is what:
            raise Refusal
        place = place.location
    old = what.location
    if old is where:
        return
    if old is not None:
        old.contents.remove(what)
    where.contents.append(what)
    what.location = where
    if old is not None:
        old.exitfunc(what)
    where.enterfunc(what)


def idle_seconds(who):
    """Returns the seconds since a connected player's last line."""
    if who.connected_at is None:
        raise ValueError
    return now - who.heard_at


def connected_seconds(who):
    """Returns the seconds since a connected player's login."""
    if who.connected_at is None:
        raise ValueError
    return now - who.connected_at
