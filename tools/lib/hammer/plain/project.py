"""Projects: what is refused of a described one, and what is run of an accepted one (FORMATS.md, section 10)."""

import json

from .check import CheckFault, Checker, Scope
from .reader import Fault, described, value_of
from .rungs import TextFault, instructions, read_rung
from .tags import BITS, Refused, Tags, Types
from .words import is_name

MOST_ALL, MOST_WORDS = 131_072, 128
WORD, SMALL = 32, 4_096  # bits of a word, in which a watched place lies; bytes of an image that is compared word by word
MASKS = {kind: (1 << bits) - 1 for kind, bits in BITS.items()}
FITS = {"BOOL": (0, 1), "SINT": (-128, 127), "INT": (-32_768, 32_767), "DINT": (-(1 << 31), (1 << 31) - 1)}


class Project:
    """A project that a file gives; Fault if it is refused."""

    def __init__(self, contents):
        self.file = described(contents)
        self.contents = contents
        for key in ("types", "tags", "connections", "initial", "watch"):
            self.file.setdefault(key, [])
        self.programs = self.file["programs"]
        self.tasks = self.file["tasks"]
        self.program_names = [program["name"].lower() for program in self.programs]
        self.names_of_routines = [tuple(one["name"].lower() for one in program["routines"]) for program in self.programs]
        self.judge_names()
        self.mains = [self.routine_names(at).index(program["main"].lower()) for at, program in enumerate(self.programs)]
        self.judge_tags()
        self.judge_tasks()
        self.scopes = [self.scope(program) for program in range(len(self.programs))]
        self.image = bytearray(self.tags.bytes)
        self.connections = [self.connection(at, one) for at, one in enumerate(self.file["connections"])]
        self.put_initial()
        self.watches = [(text, *self.scoped(text, ("watch", at))) for at, text in enumerate(self.file["watch"])]
        self.watches_of = {}
        for number, (_, _, at) in enumerate(self.watches):
            self.watches_of.setdefault(at // WORD, []).append(number)
        self.read_rungs()

    def judge_names(self):
        self.differ([program["name"] for program in self.programs], lambda at: ("programs", at, "name"))
        for place, program in enumerate(self.programs):
            self.differ([one["name"] for one in program["routines"]], lambda at: ("programs", place, "routines", at, "name"))
        self.differ([task["name"] for task in self.tasks], lambda at: ("tasks", at, "name"))
        self.differ([one["name"] for one in self.file["connections"]], lambda at: ("connections", at, "name"))
        for place, program in enumerate(self.programs):
            if program["main"].lower() not in self.routine_names(place):
                raise Fault("P5", ("programs", place, "main"))

    @staticmethod
    def differ(names, path):
        earlier = set()
        for at, name in enumerate(names):
            if name.lower() in earlier:
                raise Fault("P6", path(at))
            earlier.add(name.lower())

    def routine_names(self, program):
        return self.names_of_routines[program]

    def judge_tags(self):
        try:
            types = Types(self.file["types"])
        except Refused as refused:
            raise Fault("P9", ("types", refused.at), refused.code) from None
        self.tags = Tags(types, len(self.programs))
        places = [(None, ("tags", at), one) for at, one in enumerate(self.file["tags"])]
        for number, program in enumerate(self.programs):
            places += [(number, ("programs", number, "tags", at), one) for at, one in enumerate(program.get("tags", []))]
        for scope, path, declaration in places:
            try:
                self.tags.declare(scope, declaration)
            except Refused as refused:
                raise Fault("P9", path, refused.code) from None
        try:
            self.tags.judge_aliases()
        except Refused as refused:
            paths = [path for _, path, declaration in places if "alias" in declaration]
            raise Fault("P9", paths[refused.at], refused.code) from None

    def judge_tasks(self):
        numbers = {program["name"].lower(): at for at, program in enumerate(self.programs)}
        self.schedule, continuous = [], 0
        for at, task in enumerate(self.tasks):
            for place, name in enumerate(task["programs"]):
                if name.lower() not in numbers:
                    raise Fault("P5", ("tasks", at, "programs", place))
            self.schedule.append([numbers[name.lower()] for name in task["programs"]])
            continuous += task["kind"] == "continuous"
            if continuous == 2:
                raise Fault("P8", ("tasks", at))
        listed = [program for programs in self.schedule for program in programs]
        for at in range(len(self.programs)):
            if listed.count(at) != 1:
                raise Fault("P7", ("programs", at))

    def connection(self, at, one):
        """Its name, whether it goes out, its first byte, its words, and the task that it triggers."""
        found = self.found(None, one["tag"], ("connections", at, "tag"))
        size = self.tags.types.size(found.base, found.dim)
        taken = found.base == "DINT" or (found.base in self.tags.types.members_of and not found.dim)
        if not found.whole or not taken or size > MOST_WORDS * 4:
            raise Fault("P5", ("connections", at, "tag"))
        trigger = None
        if "trigger" in one:
            events = [number for number, task in enumerate(self.tasks)
                      if task["kind"] == "event" and task["name"].lower() == one["trigger"].lower()]
            if not events or one["direction"] == "out":
                raise Fault("P5", ("connections", at, "trigger"))
            trigger = events[0]
        return one["name"].lower(), one["direction"] == "out", found.at // 8, size // 4, trigger

    def found(self, scope, text, path):
        try:
            return self.tags.resolve(scope, text, True)
        except Refused as refused:
            raise Fault("P9", path, refused.code) from None

    def scoped(self, text, path):
        """The kind and the place of an initial value or a watched place."""
        scope = None
        if text.startswith("Program:") and "." in text:
            name, _, rest = text[len("Program:"):].partition(".")
            if is_name(name):
                numbers = [at for at, program in enumerate(self.programs) if program["name"].lower() == name.lower()]
                if not numbers:
                    raise Fault("P9", path, "G3")
                scope, text = numbers[0], rest
        found = self.found(scope, text, path)
        if found.dim or found.base not in BITS:
            raise Fault("P5", path)
        return found.base, found.at

    def put_initial(self):
        for at, one in enumerate(self.file["initial"]):
            kind, place = self.scoped(one["tag"], ("initial", at, "tag"))
            least, most = FITS[kind]
            if not least <= one["value"] <= most:
                raise Fault("P5", ("initial", at, "value"))
            write(self.image, kind, place, one["value"])

    def read_rungs(self):
        """For each program its routines: the rungs as they are spelled, and as they are checked."""
        self.texts, self.checked = [], []
        for program, described_program in enumerate(self.programs):
            texts, checked = [], []
            for routine, one in enumerate(described_program["routines"]):
                path = ("programs", program, "routines", routine)
                texts.append([self.rung(text, (*path, "rungs", at)) for at, text in enumerate(one["rungs"])])
                try:
                    checked.append(self.check(program, texts[-1]))
                except CheckFault as fault:
                    raise Fault("P10", path, fault) from None
            self.texts.append(texts)
            self.checked.append(checked)
        if sum(self.count(texts) for texts in self.texts) > MOST_ALL:
            raise Fault("P11", ("programs",))

    @staticmethod
    def count(routines):
        return sum(1 for rungs in routines for rung in rungs for _ in instructions(rung))

    @staticmethod
    def rung(text, path):
        try:
            return read_rung(text)
        except TextFault as fault:
            raise Fault("P10", path, fault) from None

    def scope(self, program):
        events = tuple((task["name"].lower(), task["kind"] == "event") for task in self.tasks)
        return Scope(self.tags, program, self.routine_names(program), events, {})

    def check(self, program, rungs):
        return Checker(rungs, self.scopes[program]).checked()

    def watched_where(self, before, after):
        """The numbers, in order, of watched places that may differ between two images: those in the words from the first bit that does to the last."""
        if len(after) > SMALL:
            return range(len(self.watches))
        bits = int.from_bytes(before, "little") ^ int.from_bytes(after, "little")
        words = range(((bits & -bits).bit_length() - 1) // WORD, bits.bit_length() // WORD + 1)
        if len(words) > len(self.watches):
            return range(len(self.watches))
        return sorted(number for word in words for number in self.watches_of.get(word, ()))

    def migrated(self):
        """The file in schema 2, on one line."""
        value = value_of(self.contents)
        value["schema"] = 2
        return json.dumps(value, ensure_ascii=False, separators=(",", ":"), sort_keys=True) + "\n"


def read(image, kind, at):
    """The number at a place; `at` counts bits."""
    if kind == "BOOL":
        return image[at >> 3] >> (at & 7) & 1
    start = at >> 3
    return int.from_bytes(image[start:start + BITS[kind] // 8], "little", signed=True)


def write(image, kind, at, value):
    """Stores the low bits, and changes nothing else."""
    if kind == "BOOL":
        image[at >> 3] = image[at >> 3] & ~(1 << (at & 7)) | (value & 1) << (at & 7)
    else:
        size, start = BITS[kind] // 8, at >> 3
        image[start:start + size] = (value & MASKS[kind]).to_bytes(size, "little")
