"""Refusals that hang on the names and places of a project: a name of nothing, a name twice, a program in no task, what fits nowhere."""

from __future__ import annotations

from lib.hammer.plain.project import FITS
from lib.texts import Said, counted, listed, meant, quoted

from .refused import Refused
from .shape import out_of_form
from .tags import described, resolved, scoped

MOST_CONNECTION = 512


def wrong_value(refused: Refused) -> Said:
    """P5."""
    said = out_of_form(refused)
    if said is not None:
        return said
    kind, value = refused.keys[0], refused.at(refused.keys)
    if kind == "programs":
        routines = refused.names(*refused.keys[:2], "routines")
        return refused.say(f"the program has no routine {quoted(value)}{meant(value, routines)}", applies="nothing has")
    if kind == "tasks":
        return refused.say(f"there is no program {quoted(value)}{meant(value, refused.names('programs'))}", applies="nothing has")
    if refused.keys[-1] == "trigger":
        return trigger(refused, value)
    if refused.keys[-1] == "value":
        place = scoped(refused, str(refused.at([*refused.keys[:-1], "tag"])))
        least, most = FITS[place.base]
        return refused.say(f"{value} doesn't fit: the place is a {place.base}, from {least:,} to {most:,}", applies="out of range")
    return place_of_no_use(refused, value)


def trigger(refused: Refused, value: str) -> Said:
    if refused.at([*refused.keys[:-1], "direction"]) == "out":
        return refused.say("an output has no trigger", applies="no place")
    tasks = [one for one in refused.at(["tasks"]) if one["name"].lower() == value.lower()]
    events = [one["name"] for one in refused.at(["tasks"]) if one["kind"] == "event"]
    if tasks:
        return refused.say(f"the task {quoted(value)} is {tasks[0]['kind']}; a trigger is an event task", applies="nothing has")
    return refused.say(f"there is no event task {quoted(value)}{meant(value, events)}", applies="nothing has")


def place_of_no_use(refused: Refused, value: str) -> Said:
    """A tag that is there, but can't be watched, have an initial value, or be a connection's."""
    if refused.keys[0] != "connections":
        what = described(refused, scoped(refused, value))
        return refused.say(f"{quoted(value)} is {what}; a BOOL, a bit or an integer must stand here", applies="no place")
    found = resolved(refused, value)
    size = refused.half.tags.types.size(found.base, found.dim)
    if not found.whole:
        why = f"{quoted(value)} is a part of a tag; a connection has a whole one"
    elif size > MOST_CONNECTION:
        why = f"{quoted(value)} has {counted(size, 'byte')}; a connection at most {MOST_CONNECTION}"
    else:
        why = f"{quoted(value)} is {described(refused, found)}; a connection has a DINT, an array of DINTs or a structure"
    return refused.say(why, applies="no place")


def same_name(refused: Refused) -> Said:
    """P6."""
    *before, place, key = refused.keys
    name = refused.at(refused.keys)
    for earlier in range(int(place)):
        path = [*before, str(earlier), key]
        if refused.at(path).lower() == name.lower():
            return refused.say(f"the name {quoted(name)} is taken: line {refused.line(path)} has it")
    raise LookupError(name)


def not_once(refused: Refused) -> Said:
    """P7."""
    name = str(refused.at([*refused.keys, "name"]))
    tasks = [task["name"] for task in refused.at(["tasks"]) for one in task["programs"] if one.lower() == name.lower()]
    why = f"it is listed {len(tasks)} times, by {listed(dict.fromkeys(tasks))}" if tasks else "no task lists it"
    return refused.say(why, [*refused.keys, "name"], "twice" if tasks else "no task")


def second_continuous(refused: Refused) -> Said:
    """P8."""
    first = next(one for one in refused.at(["tasks"]) if one["kind"] == "continuous")
    return refused.say(f"{first['name']} is continuous already", [*refused.keys, "kind"])
