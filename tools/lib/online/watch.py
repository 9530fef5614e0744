"""What is watched: the places that the page shows, and of all other rungs as many as there is room for."""

from lib.neutral import elements, instructions

MOST = 256
MOST_TRENDS = 4
ROWS = 100  # of a routine are shown at a time


class Watch:
    def __init__(self, plan):
        self.plan = plan
        self.table = list(plan.source.get("watch", []))  # the engineer's
        self.trends = self.table[:2]
        self.stops = []
        first = plan.source["programs"][0]
        self.view, self.first_row = (first["name"], first["main"]), 0
        self.names = {}  # by program and text of a rung

    def names_of(self, program, texts):
        """The names of all places in rungs, each perhaps more than once."""
        for text in texts:
            if (program, text) not in self.names:
                found = [name for each in instructions(elements(text)) for name in self.plan.live(program, each)[1]]
                self.names[program, text] = tuple(found)
            yield from self.names[program, text]

    def rows(self, book):
        """The rows that are shown."""
        program, routine = self.view
        return book.programs[program].rows(routine)[self.first_row:self.first_row + ROWS]

    def first(self, book):
        """What must be watched, first of all what the engineer asked for."""
        yield from self.table
        yield from self.trends
        yield from (stop.place for stop in self.stops if stop.place)
        for connection in self.plan.connections:
            yield from filter(None, self.plan.words(connection))
        yield from self.names_of(self.view[0], [text for _, _, text in self.rows(book)])

    def wanted(self, book):
        """All that there is room for, each once."""
        found = {}
        for name in self.first(book):
            if len(found) == MOST:
                break
            found.setdefault(name.lower(), name)
        for program, held in book.programs.items():
            for routine in held.base:
                if len(found) == MOST:
                    return list(found.values())
                for name in self.names_of(program, [text for _, _, text in held.rows(routine)]):
                    if len(found) < MOST:
                        found.setdefault(name.lower(), name)
        return list(found.values())

    def missed(self, book, watched):
        """Whether something is shown that isn't watched, though there is room for it."""
        needed = list(dict.fromkeys(name.lower() for name in self.first(book)))[:MOST]
        return not set(needed) <= {name.lower() for name in watched}

    def put(self, name, on):
        self.table = [each for each in self.table if each.lower() != name.lower()] + [name] * on

    def put_trend(self, name, on):
        self.trends = ([each for each in self.trends if each.lower() != name.lower()] + [name] * on)[-MOST_TRENDS:]

    def leave_out(self, name):
        """The controller has refused this place."""
        self.table = [each for each in self.table if each != name]
        self.trends = [each for each in self.trends if each != name]
        self.stops = [stop for stop in self.stops if stop.place != name]
