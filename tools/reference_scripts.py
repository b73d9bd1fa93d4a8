"""Random scripts of a plain reference, and what it answers to them."""

import importlib
import os
import sys
from collections import namedtuple

# the profiles of the reference's generator, less those that are about dumps and static fields
PROFILES = ("mixed", "gcpressure", "forks", "grammar", "weak", "large")

# how many fields a script's classes may declare: all their names are compared, which costs gigabytes for some more
FIELDS = 400

# how many frames a line may count, since their pages are compared with each other
FRAMES = 2000

# a command, the number of its line, and what the reference told: the reply, the reads that the line allows, and the
# process's touched pages and noted cards after the line, 0 where no live process has the name
Line = namedtuple("Line", "number command reply allowed touched noted")

# a script's lines, and what a world of one process begins with: the budget and the number of the first object
Script = namedtuple("Script", "seed profile budget first lines")


def affordable(commands):
    """The commands, less the classes whose fields would be too many."""
    left = FIELDS
    for number, command in commands:
        declared = len(command[4]) if command[1] == "class" else 0
        if declared <= left:
            left -= declared
            yield number, command


def is_counted(line):
    """Whether a line isn't one that counts too many frames. It changes nothing, so it can be left out."""
    return not line.reply.startswith("frames ") or int(line.reply.split(" ")[1]) <= FRAMES


class Reference:
    """The reference that lies in a folder."""

    def __init__(self, folder):
        folder = os.path.abspath(folder)
        if not os.path.isfile(os.path.join(folder, "fuzz_gen.py")):
            sys.exit(f"{folder} has no fuzz_gen.py")
        sys.path.insert(0, folder)
        sys.dont_write_bytecode = True
        self.generator = importlib.import_module("fuzz_gen")
        self.grammar = importlib.import_module("script")
        self.worlds = importlib.import_module("world")

    def script(self, seed, count, profile=None, budget=None, first=1):
        """The script of a seed: its first `count` commands, answered."""
        profile = profile or PROFILES[seed % len(PROFILES)]
        text, budget = self.generated(seed, count, profile, budget)
        parsed = enumerate(map(self.parsed, text.split(b"\n")), 1)
        commands = [(number, command) for number, command in parsed if isinstance(command, tuple)]
        return self.answered(Script(seed, profile, budget, first, []), list(affordable(commands))[:count])

    def generated(self, seed, count, profile, budget):
        """A script's bytes, and its budget. It has more lines than are kept, since not all are commands."""
        kept = self.generator.PROFILES[profile]
        if budget is not None:
            self.generator.PROFILES[profile] = dict(kept, regions=(budget,))
        maker = self.generator.Maker(seed, 2 * count, profile, False, dumps=False)
        self.generator.PROFILES[profile] = kept
        return maker.make(), maker.regions

    def parsed(self, line):
        return self.grammar.parse(line, statics=False)

    def answered(self, script, commands):
        """The script of these commands, pairs of a line's number and a command."""
        world = self.worlds.World(script.budget, script.first)
        lines = [self.step(world, number, command) for number, command in commands]
        return script._replace(lines=[line for line in lines if is_counted(line)])

    def with_lines(self, script, lines):
        """A script of some of its lines. They are answered anew."""
        return self.answered(script, [(line.number, line.command) for line in lines])

    def step(self, world, number, command):
        before = world.allowance
        reply = world.step(number, command).text
        process = world.processes.get(command[0])
        live = process is not None and not process.exited
        touched, noted = (len(process.touched), len(process.noted())) if live else (0, 0)
        return Line(number, command, reply, world.allowance - before, touched, noted)
