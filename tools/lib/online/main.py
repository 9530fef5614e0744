"""The words of tools/online."""

import json
import os
import signal
import subprocess
import sys
from functools import lru_cache

from lib.paths import read_bytes, read_text
from lib.programs import Ended, find, run
from lib.places.codes import CODE, table

from . import journal as journals
from .player import Player
from .processes import Programs
from .server import Server
from .session import Session
from .shown import Shown
from .uses import Uses

USAGE = "usage: online P [J]"


class NoJournal(Exception):
    """A journal with a line that the controller doesn't take; says so as `./logix` does."""


def codes_of(text):
    """The codes in a text, without the numbers after one that say where a refusal is."""
    words = [word for word in text.replace("refused", " ").split() if CODE.fullmatch(word)]
    return [word for at, word in enumerate(words) if not (word.isdigit() and any(code[0].isalpha() for code in words[:at]))]


def explainer():
    """What the documents' tables say of the codes in a text, each as code and sentence."""
    known = table()

    @lru_cache(1_000)
    def said(text):
        return [[code, known[code][0].sentence()] for code in codes_of(text) if code in known]

    return said


def read_journal(program, project, path):
    """The journal of a file, if the controller takes each of its lines."""
    with open(path, "rb") as file:
        told = subprocess.run([*program.words, project], stdin=file, stdout=subprocess.PIPE, check=False)
    if told.returncode:
        raise Ended(told.returncode, told.stdout.decode(errors="replace"))
    for line in told.stdout.splitlines():
        if line.startswith(b"line "):
            _, code, number = line.decode().split()
            raise NoJournal(f"journal {code} line {number}")
    return journals.read(read_text(path))


def open_session(words, explain):
    """The session of these files, at the journal's end; refuses a project as `./logix` does."""
    logix, live = find("logix", "logix_live")
    data = read_bytes(words[0])
    run(logix, "check", words[0])
    session = Session(Programs(logix, live), json.loads(data), explain)
    try:
        if len(words) > 1:
            session.journal = read_journal(live, words[0], words[1])
            session.go(session.journal.length, renew=True)
    except BaseException:
        session.rest()
        raise
    return session


def serve(session, title):
    player = Player(session, lambda fresh: shown.frame(fresh))
    shown = Shown(session, player, {"title": title})
    session.on_snap = shown.snapshot
    server = Server(0, session, player, shown, Uses(session))
    for number in (signal.SIGINT, signal.SIGTERM, signal.SIGHUP):
        signal.signal(number, signal.default_int_handler)  # also where Ctrl-C was to be ignored, as in the background
    if not session.programs.live.proved:
        print("online: the controller isn't proved yet: each command takes a minute or two, and it can't play in real time; "
              "tools/prove builds the proved one", file=sys.stderr)
    try:
        print(server.address, flush=True)
        server.serve_forever(0.1)
    except KeyboardInterrupt:
        pass
    finally:
        with session.taken():
            player.pause()
        server.server_close()


def main(words):
    if not 1 <= len(words) <= 2 or words[0].startswith("-"):
        print(USAGE, file=sys.stderr)
        return 1
    explain = explainer()
    try:
        session = open_session(words, explain)
    except (Ended, NoJournal) as refused:
        status, text = (refused.status, refused.text) if isinstance(refused, Ended) else (3, str(refused))
        print(text.strip(), *(f"{code}: {what}" for code, what in explain(text)), sep="\n", file=sys.stderr)
        return status if status > 0 else 70
    except OSError as fault:
        print(f"online: {fault}", file=sys.stderr)
        return 4
    try:
        serve(session, os.path.basename(words[0]))
    finally:
        with session.taken():
            session.rest()
    return 0
