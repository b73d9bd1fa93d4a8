"""A repository whose crates claim what the definitions of heap_world give over scripts, and its check."""

import os
import re
import shutil
import subprocess
import tempfile
import time
from collections import namedtuple

import definition_text

TOP = os.path.dirname(os.path.dirname(os.path.abspath(__file__)))
LIBRARIES = {"class_layout": "indexmap", "heap_graph": "class_layout", "heap_world": "class_layout heap_graph"}

# how a check ended: what it said, its seconds, and the most memory of one of its processes, in MiB
Checked = namedtuple("Checked", "message seconds memory")

LIB_HEAD = """\
//! What the definitions give over random scripts, as a reference tells it.
#![tactic(auto)]
ghost use Rattle.std.specs.Prelude.{◌≡◌};
ghost use Rattle.heap_world.specs.Run.{answers};
ghost use Rattle.heap_world.specs.World.{first_world};
ghost use Rattle.CRATE.specs.Traces.{traces};
"""

USE = "ghost use Rattle.{crate}.specs.Script{seed} as script{seed};\n"

FUNCTION = """
fn script_{seed}()
    ensures replies {{ answers (first_world {budget} {first}) script{seed}.lines ≡ script{seed}.told }}
    ensures counts {{ traces (first_world {budget} {first}) script{seed}.lines ≡ script{seed}.traced }}
{{}}
"""

# both sides compute to the same
PROOF = """\
use Rattle.std.specs.Prelude.{{refl}}
use Rattle.{crate}.proofs.script_{seed}.Goals as goal

pub returns-clause-replies : goal.returns-clause-replies
returns-clause-replies c = refl

pub returns-clause-counts : goal.returns-clause-counts
returns-clause-counts c = refl
"""


def written(text, *path):
    path = os.path.join(*path)
    os.makedirs(os.path.dirname(path), exist_ok=True)
    with open(path, "w", encoding="utf-8") as file:
        file.write(text)


def checked_in(crate):
    """`rt check` in a crate's folder."""
    began = time.monotonic()
    with tempfile.TemporaryFile("w+", encoding="utf-8") as log:
        process = subprocess.Popen(["rt", "check"], cwd=crate, stdout=log, stderr=subprocess.STDOUT)
        _, status, usage = os.wait4(process.pid, 0)
        process.returncode = os.waitstatus_to_exitcode(status)
        log.seek(0)
        return Checked(log.read(), time.monotonic() - began, usage.ru_maxrss // 1024)


def is_proved(checked, seed):
    return re.search(rf"^fn \w+::script_{seed}: proved$", checked.message, re.MULTILINE) is not None


def errors(checked, seed):
    """What the check says of the proof of a script."""
    return re.findall(rf"^\./proofs/script_{seed}/.*\n(?:  .*\n)*", checked.message, re.MULTILINE)


def differences(checked, seed):
    """Where the two sides of a script differ, as the check says it; nothing where it stopped before it came so far."""
    form = r"computed as far as they go, the two types (.*\n(?:  \(.*\n)?)"
    ends = [re.search(form, error) for error in errors(checked, seed)]
    return [" ".join(end[1].split()) for end in ends if end]


def stop(checked, seed):
    """What stopped the check of a script: the head of its first error, or else the end of all that the check said."""
    found = errors(checked, seed)
    return found[0].splitlines()[0] if found else checked.message[-1000:]


def copy_library(name, crates):
    """A library of this repository as it stands, without what checks kept."""
    for part in ("src", "specs", "proofs"):
        to = os.path.join(crates, name, part)
        shutil.rmtree(to, ignore_errors=True)
        shutil.copytree(os.path.join(TOP, "crates", name, part), to)


def write_script(crate, name, script):
    text = definition_text.script_text(name, script)
    written(text, crate, "specs", f"Script{script.seed}.antt")
    proof = PROOF.format(crate=name, seed=script.seed)
    written(proof, crate, "proofs", f"script_{script.seed}", "Answers.antt")


def write_library(crate, name, scripts):
    """The files of a crate that name its scripts."""
    modules = ["Traces"] + [f"Script{script.seed}" for script in scripts]
    written("".join(f"pub mod {module}\n" for module in modules), crate, "specs", "Lib.antt")
    written(definition_text.TRACES, crate, "specs", "Traces.antt")
    uses = [USE.format(crate=name, seed=script.seed) for script in scripts]
    functions = [FUNCTION.format(seed=x.seed, budget=x.budget, first=x.first) for x in scripts]
    written(LIB_HEAD.replace("CRATE", name) + "".join(uses + functions), crate, "src", "lib.rt")


class Repository:
    """A repository in a folder, with the libraries of this one."""

    def __init__(self, folder):
        self.folder = os.path.abspath(folder)
        self.listed = dict(LIBRARIES)
        for name in LIBRARIES:
            copy_library(name, os.path.join(self.folder, "crates"))

    def check(self, name, scripts):
        """Writes a crate that claims what the scripts tell, in place of one of that name, and checks it."""
        crate = os.path.join(self.folder, "crates", name)
        shutil.rmtree(crate, ignore_errors=True)
        for script in scripts:
            write_script(crate, name, script)
        write_library(crate, name, scripts)
        self.listed[name] = " ".join(LIBRARIES)
        listed = "".join(f"{name}: {below}\n" for name, below in self.listed.items())
        written(listed, self.folder, "crates.txt")
        return checked_in(crate)
