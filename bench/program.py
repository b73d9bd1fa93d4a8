"""Builds a program for measuring over crates of this repository, in a folder outside it."""

import os
import resource
import shutil
import subprocess

TOP = os.path.dirname(os.path.dirname(os.path.abspath(__file__)))


def read_crates():
    """Returns the libraries that each crate uses, by its name."""
    with open(os.path.join(TOP, "crates.txt"), encoding="utf-8") as lines:
        named = [line.partition(":") for line in lines if ":" in line and not line.startswith("#")]
    return {name.strip(): used.split() for name, _, used in named}


def below(uses, names):
    """Returns the crates that these stand on, and these, without the kit's libraries."""
    found = set()
    left = list(names)
    while left:
        name = left.pop()
        if name in uses and name not in found:
            found.add(name)
            left += uses[name]
    return sorted(found)


def write(path, text):
    os.makedirs(os.path.dirname(path), exist_ok=True)
    with open(path, "w", encoding="utf-8") as file:
        file.write(text)


def write_crates(folder, name, used, files):
    """Writes the program's files and the crates that it uses, and answers the folder of its crate."""
    uses = read_crates()
    crates = below(uses, used)
    skip = shutil.ignore_patterns("out", "must-fail")
    for crate in crates:
        shutil.copytree(os.path.join(TOP, "crates", crate), os.path.join(folder, "crates", crate), ignore=skip)
    lines = [f"{crate}: {' '.join(uses[crate])}\n" for crate in crates]
    write(os.path.join(folder, "crates.txt"), "".join(lines) + f"{name}: {' '.join(used)}\n")
    write(os.path.join(folder, "HANDLES"), "Handles allowed: none.\n")
    crate = os.path.join(folder, "crates", name)
    for path, text in files.items():
        write(os.path.join(crate, path), text)
    subprocess.run(["git", "init", "-q", folder], check=True)
    return crate


def build(folder, name, used, files, words):
    """Writes a program with the crates that it uses, builds it as `rt run` does, which proves it, and answers where it
    is. The words make a short run."""
    crate = write_crates(folder, name, used, files)
    done = subprocess.run(["rt", "run", "--", *words], cwd=crate, capture_output=True, text=True)
    program = os.path.join(crate, "out", name)
    if done.returncode != 0 or not os.path.exists(program):
        raise SystemExit(done.stdout + done.stderr)
    return program


def seconds(words):
    """The processor time of a run."""
    before = resource.getrusage(resource.RUSAGE_CHILDREN)
    subprocess.run(words, stdout=subprocess.DEVNULL, check=True)
    after = resource.getrusage(resource.RUSAGE_CHILDREN)
    return after.ru_utime - before.ru_utime + after.ru_stime - before.ru_stime


def instructions(words):
    """The instructions of a run, by valgrind's callgrind."""
    tool = ["valgrind", "--tool=callgrind", "--callgrind-out-file=/dev/null"]
    done = subprocess.run(tool + words, capture_output=True, text=True, check=True)
    return int(done.stderr.split("Collected : ")[1].split()[0])


def memory(words):
    """The most memory of a run, in KiB."""
    run = subprocess.Popen(words, stdout=subprocess.DEVNULL)
    _, status, used = os.wait4(run.pid, 0)
    run.returncode = os.waitstatus_to_exitcode(status)
    if run.returncode != 0:
        raise SystemExit(f"{words}: status {run.returncode}")
    return used.ru_maxrss
