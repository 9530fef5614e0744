"""16 journals for the project of refused_projects.py, and what is said of each on a terminal: written by hand, from the rules."""

from __future__ import annotations

from dataclasses import dataclass

IS_REFUSED = "logix: status 3: the journal, script, trace, link script or question is refused\n"


@dataclass
class Case:
    """`line` is what the program writes if it refuses the journal; of others `said` is of the commands that are refused in the report."""

    name: str
    journal: str
    line: str
    said: str

    def contents(self) -> bytes:
        return self.journal.encode("utf-8")


CASES = (
    Case("another verb", "mode run\nstep 3\nend\n", "journal J1 line 2", """\
line.txt, line 2: no line begins with 'step'; it is cpu, tick, in, out, accept, test, untest, assemble, cancel, mode, clear, force or end
    step 3
    ^
J1: a malformed line, or one of over 65,536 bytes. To do: correct the line.
"""),
    Case("no end", "mode run\ncpu 3\n", "journal J1 line 3", """\
line.txt, line 3: the line 'end' is missing: here the text ends
J1: no line `end` (the line after the last). To do: add it.
"""),
    Case("a number as in the rungs", "in In1 0 16#45\nend\n", "journal J1 line 1", """\
line.txt, line 1: '16#45': numbers of a journal are decimal
    in In1 0 16#45
             ^
J1: no name, or no number of 32 bits, where one is needed. To do: correct the word.
"""),
    Case("no value", "@0 in In1 0\nend\n", "journal J1 line 1", """\
line.txt, line 1: the line must be 'in CONN WORD VALUE'
    @0 in In1 0
               ^
J1: a malformed line, or one of over 65,536 bytes. To do: correct the line.
"""),
    Case("a mode with a capital", "mode Run\nend\n", "journal J1 line 1", """\
line.txt, line 1: mode 'Run' isn't there; is run meant?
    mode Run
         ^
J1: a malformed line, or one of over 65,536 bytes. To do: correct the line.
"""),
    Case("the mark of Notepad", "\ufeffmode run\nend\n", "journal J1 line 1", """\
line.txt, line 1: the file begins with a byte order mark: save it without
    \\ufeffmode run
    ^
J1: a malformed line, or one of over 65,536 bytes. To do: correct the line.
"""),
    Case("a tab", "mode run\ncpu\t3\nend\n", "journal J1 line 2", """\
line.txt, line 2: a tab stands between words; write a space
    cpu 3
       ^
J1: a malformed line, or one of over 65,536 bytes. To do: correct the line.
"""),
    Case("the operator's lane", "# as in a script\n\n@31 clear\nend\n", "journal J2 line 3", """\
line.txt, line 3: no lane 31: lanes are 0 to 30; the operator, 31, has no @
    @31 clear
    ^
J2: a lane above 30. To do: choose another.
"""),
    Case("no steps", "mode run\ncpu 0\nend\n", "journal J4 line 2", """\
line.txt, line 2: cpu 0 does nothing
    cpu 0
        ^
J4: a count of 0. To do: leave the line out.
"""),
    Case("too many ticks", "tick 3000000\ntick 1000001\nend\n", "journal J4 line 2", """\
line.txt, line 2: with this line there are more than 4,000,000 ticks
    tick 1000001
         ^
J4: the line with which steps or ticks pass 4,000,000, or actions 100,000. To do: take fewer.
"""),
    Case("a connection misspelt", "mode run\n@0 in Inn1 0 5\ncpu 3\n@0 in Inn1 0 0\nend\n", "", """\
logix: 2 commands are refused; the first is line 2 of line.txt: there is no connection 'Inn1'; is In1 meant?
    @0 in Inn1 0 5
          ^
N1: no connection has the name. To do: correct the name.
"""),
    Case("a word too far", "in In1 2 5\nend\n", "", """\
logix: 1 command is refused; it is line 1 of line.txt: In1 has 2 words, 0 to 1
    in In1 2 5
           ^
N2: it has no such word. To do: count from 0.
"""),
    Case("a word in on an output", "in Out2 0 1\nend\n", "", """\
logix: 1 command is refused; it is line 1 of line.txt: Out2 is an output
    in Out2 0 1
    ^
N3: a word in on an output, or out on an input. To do: use the other command.
"""),
    Case("an edit with a tag misspelt", """\
@1 accept Line Main i 0 XIC(StartPB)OTE(LineRun);
@1 accept Line Main r 2 XIC(Stagger.DN)OTE(Motr1);
end
""", "", """\
logix: 1 command is refused; it is line 2 of line.txt: rung 3 of the edited routine: there is no tag 'Motr1'; is Motor1 meant?
    @1 accept Line Main r 2 XIC(Stagger.DN)OTE(Motr1);
    XIC(Stagger.DN)OTE(Motr1);
                       ^
C4: neither the program nor the controller declares the tag. To do: declare it, or correct the spelling.
"""),
    Case("an edit without a bracket", "accept Line Main i 4 NOP(); | r 1 XIC(LineRunTON(Stagger,?,?);\nend\n", "", """\
logix: 1 command is refused; it is line 1 of line.txt: no rung goes on with '(' here
    accept Line Main i 4 NOP(); | r 1 XIC(LineRunTON(Stagger,?,?);
    XIC(LineRunTON(Stagger,?,?);
                  ^
T1: any other byte that can't continue a rung. To do: look just before it.
"""),
    Case("a tick of two seconds", "mode run\ncpu 2\ntick 2000\ncpu 100\nend\n", "", ""),
)
