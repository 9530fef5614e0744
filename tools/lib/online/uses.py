"""Who writes and reads a tag, by `./logix xref` over the rungs as they are now; and who wrote it at a change."""

import os
import subprocess

from lib.programs import Ended, run

from .journal import Act

MOST = 100
TAIL = 4_096  # bytes of a trace


class Uses:
    def __init__(self, session):
        self.session, self.text, self.table = session, None, {}

    def of(self, name):
        """Each use of the tag: write or read, program, routine, rung, instruction, mnemonic."""
        session = self.session
        book = session.seen.book.programs
        text = session.plan.copy([], lambda program, routine: book[program].running(routine))
        if text != self.text:
            self.table, tag = {}, []
            for line in run(session.programs.logix, "xref", session.write("running.json", text)).splitlines():
                if line.startswith("tag "):
                    tag = self.table.setdefault(line[4:].lower(), [])
                else:
                    tag.append(line.split())
            self.text = text
        return self.table.get(session.plan.tag_of(name), [])[:MOST]

    def writers(self, name):
        """Of the change that the last event made: in words, and the rungs that may have made it."""
        session = self.session
        last = next(session.journal.part(session.at - 1, session.at), None)
        if isinstance(last, Act):
            return f"by {last.line[:80]}", []
        found = [use for use in self.of(name) if use[0] == "write"]
        programs = {use[1] for use in found}
        if len(programs) < 2:
            return "", found
        scanning = self.scanning()
        if scanning is None:
            return "; which of these programs was scanning isn't known", found
        return f"while {scanning} was scanning", [use for use in found if use[1] == scanning]

    def scanning(self):
        """The program whose step the last event was, by `./logix trace`; None if it can't be told (beyond 4,000,000 steps)."""
        session = self.session
        path = session.write("part.txt", "".join(session.journal.front(session.at).text()))
        with open(os.path.join(session.folder, "trace.txt"), "w+b") as file:
            words = [*session.programs.logix.words, "trace", session.original(), path]
            if subprocess.run(words, stdout=file, stdin=subprocess.DEVNULL, check=False).returncode:
                return None
            file.seek(max(file.tell() - TAIL, 0))
            step = file.read().split(b"\n")[-3].split()
        return session.plan.source["programs"][int(step[2])]["name"] if step[0] == b"step" else None

    def told(self, name):
        try:
            text, found = self.writers(name)
        except Ended:
            return "", []
        return text, found
