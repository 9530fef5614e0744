"""Words that are none: each program says how it is called, with status 1; and the two limits of instructions, which alone have their causes."""

from .laws import Broken, law
from .limits import LIMITS, of_limit
from .sound import shown

FILES = ("/dev/null", "nothing", "1", "-1", "x", "--from", "5")
VERBS = ("check", "text", "migrate", "xref", "replay", "trace", "audit", "run", "stations", "link", "gen")
NEEDS = {"check": 1, "text": 1, "migrate": 1, "xref": 1, "replay": 2, "trace": 2, "audit": 2, "run": 2, "stations": 3, "link": 3, "gen": 1}
BESIDE = {"logix_live": 1, "logix_cover": 2, "logix_explore": 3, "logix_laws": 2}
USAGE = {
    "logix": b"usage: logix check P, ", "logix_live": b"usage: logix_live P\n", "logix_timeline": b"usage: logix_timeline ",
    "logix_wave": b"usage: logix_wave ", "logix_cover": b"usage: logix_cover P J\n", "logix_explore": b"usage: logix_explore P S Q\n",
    "logix_laws": b"usage: logix_laws P T\n",
}
OPTIONS = (
    "--from", "--from x", "--from 5 --to 4", "--to 4294967296", "--bool b", "--bool b=1=2", "--bool =1", "--bool b=", "--number n=x", "tick tick", "--to 3 tick",
    "--width 639", "--width 20001", "--bool b=1 --bool b=0", "--project /dev/null", "-", "--from -1",
)
INSTRUCTIONS = [at for at, row in enumerate(LIMITS) if row.what in ("instructions of a routine", "instructions by edits")]


@law
def of_words(program, contents):
    name, *words = (one.decode() for one in contents)
    ran = program.run(words, path=program.path if name == "logix" else program.beside(name), given=b"end 0 0 run lost 0\n")
    if ran.status != 1 or ran.err or not ran.out.startswith(USAGE[name]) or ran.out.count(b"\n") != 1:
        raise Broken(f"{name} {words}: status {ran.status} with {shown(ran.out)}, standard error {shown(ran.err)}")
    return None


def words_for(draw, name):
    if name in BESIDE:
        needs = BESIDE[name]
        return [draw.choice(FILES) for _ in range(draw.choice([count for count in range(5) if count != needs]))]
    if name != "logix":
        return draw.choice(OPTIONS).split(" ")
    verb = draw.choice(VERBS)
    count = draw.choice([count for count in range(5) if count != NEEDS[verb]])
    return draw.choice((
        [verb.upper()], [], ["help", "x"], [verb, *(draw.choice(FILES) for _ in range(count))], ["gen", draw.choice(("x", "-1", "4294967296", "1.0"))],
        ["stations", "/dev/null", "/dev/null", draw.choice(("0", "9", "x", "-1"))]))


def wrong_words(draw, program):
    name = draw.choice([name for name in USAGE if name == "logix" or program.beside(name)])
    return of_words, [one.encode() for one in (name, *words_for(draw, name))]


def instructions(draw, _):
    """The rows of limits about how many instructions there are."""
    return of_limit, [str(draw.choice(INSTRUCTIONS)).encode()]
