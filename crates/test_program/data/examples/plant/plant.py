"""A tank with a pump, a tap and two float switches, whose pump is run by the controller of project.json: plant.py [PROGRAM].

The controller is a process, tools/live or the PROGRAM that is named; lines of a journal go in, and lines of the report come out. Each
10 ms the plant tells it where the floats are, lets it scan its rungs, and asks for the word that goes to the pump. Half way an engineer
replaces a rung while all goes on. What happened is printed as a table.
"""

import os
import shutil
import subprocess
import sys

HERE = os.path.dirname(os.path.realpath(__file__))
STEP, LAST = 10, 3300  # ms
STEPS_OF_A_SCAN = 10  # as many processor steps as a scan takes, and two more

# What the engineer does, and when.
EDITS = {
    1500: ("@1 accept Level Go r 0 XIO(High)TON(Wait,?,?);", "@1 test Level"),
    2000: ("@1 assemble Level",),
}


class Tank:
    """The level in ml; a float is on when it is below water."""

    LOW, HIGH = 200, 400
    FROM_PUMP, TO_TAP = 8, 3  # in each step

    def __init__(self):
        self.level = 300

    def floats(self):
        """Bit 0 is the low float, bit 1 the high one."""
        return (self.level >= self.LOW) + 2 * (self.level >= self.HIGH)

    def move(self, pump):
        self.level += (self.FROM_PUMP if pump else 0) - self.TO_TAP


class Controller:
    """A controller that is talked to in turns.

    Steps and ticks are answered with any number of lines, perhaps none. Each action is answered with one reply of its lane, after all
    lines of what was told before: so who reads up to that reply is never left waiting, and has seen what came before.
    """

    def __init__(self, program, project):
        self.process = subprocess.Popen([program, project], stdin=subprocess.PIPE, stdout=subprocess.PIPE, text=True, bufsize=1)
        self.version = "-"

    def tell(self, line):
        """Tells steps or ticks, and doesn't wait."""
        try:
            self.process.stdin.write(line + "\n")
        except BrokenPipeError:
            pass  # the next read says why

    def ask(self, line):
        """Tells an action, and waits for its reply: `ok`, `ok N`, `held` or `refused CAUSE`."""
        lane = line.split()[0][1:] if line.startswith("@") else "31"
        self.tell(line)
        while True:
            words = self.read()
            if words[2:4] == ["reply", lane]:
                return " ".join(words[4:])

    def read(self):
        """The words of the next line; `T S begin TASK PROGRAM VERSION` tells the version of the rungs that are scanned."""
        words = self.process.stdout.readline().split()
        if not words:
            sys.exit("plant: the controller has ended, and a line of the report was awaited")
        if words[0] in ("project", "line"):
            sys.exit(f"plant: the controller answers '{' '.join(words)}'")
        if words[2] == "begin":
            self.version = words[5]
        return words

    def end(self):
        """Ends the talk: the last line of the report."""
        self.tell("end")
        while True:
            words = self.read()
            if words[0] == "end":
                self.process.stdin.close()
                self.process.wait()
                return " ".join(words)


def run(controller, tank):
    """Runs the plant; a row of the table at each change, and for each reply to the engineer."""
    controller.ask("mode run")
    seen, sent = None, None
    for now in range(0, LAST, STEP):
        replies = [f"{line.split()[1]}: {controller.ask(line)}" for line in EDITS.get(now, ())]
        floats = tank.floats()
        if floats != sent:
            controller.ask(f"@0 in Floats 0 {floats}")
            sent = floats
        controller.tell(f"tick {STEP}")
        controller.tell(f"cpu {STEPS_OF_A_SCAN}")
        pump = controller.ask("@0 out Pumps 0") == "ok 1"
        state = (floats & 1, floats >> 1, int(pump), controller.version)
        if state != seen or replies:
            row(now, tank.level, *state, ", ".join(replies))
            seen = state
        tank.move(pump)


def row(*cells):
    print("{:>5}  {:>5}  {:>3}  {:>4}  {:>4}  {:>7}  {}".format(*cells).rstrip())


def program():
    """tools/live of the repository that this file is in; elsewhere the program that a package installed."""
    folder = HERE
    while folder != "/":
        if os.access(f"{folder}/tools/live", os.X_OK):
            return f"{folder}/tools/live"
        folder = os.path.dirname(folder)
    return shutil.which("logix_live") or sys.exit("plant: neither tools/live nor logix_live is here")


def main(words):
    try:
        controller = Controller(words[0] if words else program(), f"{HERE}/project.json")
    except OSError as fault:
        sys.exit(f"plant: {fault}")
    row("ms", "level", "low", "high", "pump", "version", "engineer")
    run(controller, Tank())
    print(controller.end())


if __name__ == "__main__":
    main(sys.argv[1:])
