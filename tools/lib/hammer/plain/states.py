"""The state of a controller, copied and compared."""

import copy


def copied(machine):
    """A controller in the same state, which goes on by itself."""
    made = copy.copy(machine)
    made.image = bytearray(machine.image)
    made.tasks = [copy.copy(task) for task in machine.tasks]
    for task in made.tasks:
        task.scan = task.scan and task.scan.copied(made)
    made.books = [copy.copy(book) for book in machine.books]
    made.flags = [dict(flags) for flags in machine.flags]
    made.fresh, made.forces = set(machine.fresh), dict(machine.forces)
    return made


def key(machine):
    """Equal where controllers of the same project after equally many steps go on alike."""
    up = sorted(task.rank for task in machine.tasks if task.up)
    return (
        machine.mode, machine.now, machine.run_tick, bytes(machine.image), tuple(of_task(task, up) for task in machine.tasks),
        tuple(of_book(book) for book in machine.books), tuple(tuple(flags.values()) for flags in machine.flags),
        frozenset(machine.fresh), frozenset(machine.forces.items()), machine.enabled,
    )


def of_task(task, up):
    """Of ranks the order counts. A scan goes on by its own rungs."""
    if not task.up:
        return None
    scan = task.scan and (task.scan.key(), texts(task.scan.routines))
    return task.start, up.index(task.rank), task.begun, task.regions, scan


def of_book(book):
    return book.base_number, book.last, book.owner, book.testing, texts(book.base), tuple(book.accepted)


def texts(routines):
    return tuple(map(tuple, routines))
