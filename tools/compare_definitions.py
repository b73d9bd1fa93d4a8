#!/usr/bin/env python3
"""Compares the definitions of heap_world with a plain reference, by computing them over random scripts.

usage: tools/compare_definitions.py --reference DIR [--first SEED] [--count N] [--lines N] [--profile NAME]
       [--regions N] [--number N] [--together N] [--work DIR]

DIR has the reference's fuzz_gen.py, script.py and world.py. Each seed gives a random script. Its lines that are
commands are kept, at most as many as --lines says (80), under the numbers that they had. The reference answers them,
and tells for each line the reads that it allows, and how many pages are touched and cards noted in its process.

The definitions must compute the same. So a repository is written into the folder --work, a temporary one where it
isn't given: with this one's crates class_layout, heap_graph and heap_world, and a crate of --together scripts (4) at a
time. It has the lines and what the reference told as definitions, and for each script an empty function whose contract
says that the definitions give just that. `rt check` proves it by computing both sides. Where they differ it says how:
the script disagrees. It is told by its seed, and lines are left out of it while it still disagrees. A script that
comes to a limit of the check before is told as not computed.

The profile of a script follows from its seed where --profile doesn't say it. --regions is the budget in place of the
one that the profile chose, and --number the number of the first object (1). The status is 0 where all scripts agree.
"""

import argparse
import sys
import tempfile
from collections import Counter, namedtuple

import definition_crate
import definition_text
import reference_scripts

# what comparing some scripts took, in seconds and MiB, those that agree, and how many disagree
Compared = namedtuple("Compared", "seconds memory agree disagree")

# the replies that a collection goes before, but for that of a fork
COLLECTIONS = ("Kept", "Made gc", "E19", "E20")


def options():
    parser = argparse.ArgumentParser(usage=__doc__.split("usage: ")[1].split("\n\n")[0])
    parser.add_argument("--reference", required=True)
    parser.add_argument("--first", type=int, default=1)
    parser.add_argument("--count", type=int, default=6)
    parser.add_argument("--lines", type=int, default=80)
    parser.add_argument("--profile", choices=reference_scripts.PROFILES)
    parser.add_argument("--regions", type=int)
    parser.add_argument("--number", type=int, default=1)
    parser.add_argument("--together", type=int, default=4)
    parser.add_argument("--work")
    return parser.parse_args()


def is_fork(line):
    return line.command[1] == "fork" and line.reply == "ok"


def kinds(script):
    """How many replies of each kind a script has, how many forks and collections, and how often the counts tell."""
    found = Counter(definition_text.kind_of_reply(line.reply, line.command[1]) for line in script.lines)
    found["forks"] = sum(map(is_fork, script.lines))
    found["collections"] = found["forks"] + sum(found[kind] for kind in COLLECTIONS)
    found["lines with touched pages"] = sum(line.touched > 0 for line in script.lines)
    found["lines with noted cards"] = sum(line.noted > 0 for line in script.lines)
    found["lines that allow more than 16 reads"] = sum(line.allowed > 16 for line in script.lines)
    return found


def tell(script, answer):
    found = kinds(script)
    print(f"seed {script.seed}: {script.profile}, regions {script.budget}, {len(script.lines)} lines, "
          f"{found['forks']} forks, {found['collections']} collections: {answer}", flush=True)


def disagreeing(repository, scripts):
    """Which of some scripts disagree, by their places among them."""
    checked = repository.check("fewer", [script._replace(seed=at) for at, script in enumerate(scripts)])
    return [at for at in range(len(scripts)) if definition_crate.differences(checked, at)]


def shortest(reference, repository, script):
    """As few of the first lines as disagree. A check tries eight counts between one that agrees and one that doesn't."""
    agrees, count = 0, len(script.lines)
    while count - agrees > 1:
        step = -(-(count - agrees) // 9)
        counts = range(agrees + step, count, step)
        cut = [reference.with_lines(script, script.lines[:tried]) for tried in counts]
        found = disagreeing(repository, cut)
        first = found[0] if found else len(counts)
        agrees, count = ([agrees, *counts][first], [*counts, count][first])
    return reference.with_lines(script, script.lines[:count])


def with_fewer(reference, repository, script, size):
    """The script without runs of so many lines that it disagrees without, all or one of them. None where none is."""
    starts = range(0, len(script.lines) - size, size)
    runs = [set(script.lines[at:at + size]) for at in starts]
    fewer = [reference.with_lines(script, [line for line in script.lines if line not in run]) for run in runs]
    found = disagreeing(repository, fewer)
    left_out = set().union(*(runs[at] for at in found))
    least = reference.with_lines(script, [line for line in script.lines if line not in left_out])
    if len(found) > 1 and disagreeing(repository, [least]):
        return least
    return fewer[found[0]] if found else None


def smallest(reference, repository, script):
    """A script that disagrees, with no line that it disagrees without."""
    script = shortest(reference, repository, script)
    size = max(1, len(script.lines) // 8)
    while size:
        fewer = with_fewer(reference, repository, script, size)
        script, size = (fewer, size) if fewer else (script, size // 2)
    return script


def tell_difference(reference, repository, script, found):
    tell(script, "DISAGREES")
    print("\n".join(found))
    print("without the lines that it disagrees without, each with its reply, reads, touched pages and noted cards:")
    for line in smallest(reference, repository, script).lines:
        counts = f"{line.allowed} {line.touched} {line.noted}"
        print(f"  {line.number} {' '.join(map(str, line.command))}: {line.reply}, {counts}", flush=True)


def tell_failure(reference, repository, script, checked):
    """Tells a script that isn't proved. Whether it disagrees; else the check's limits didn't let it compute."""
    found = definition_crate.differences(checked, script.seed)
    if found:
        tell_difference(reference, repository, script, found)
    else:
        tell(script, f"not computed\n{definition_crate.stop(checked, script.seed)}")
    return bool(found)


def compare(reference, repository, scripts):
    """Checks scripts in one crate. The cost, the scripts that agree, and how many disagree."""
    checked = repository.check("compared", scripts)
    agree = [script for script in scripts if definition_crate.is_proved(checked, script.seed)]
    for script in agree:
        tell(script, "agrees")
    failed = [script for script in scripts if script not in agree]
    disagree = sum([tell_failure(reference, repository, script, checked) for script in failed])
    print(f"{checked.seconds:.0f} s, {checked.memory} MiB", flush=True)
    return Compared(checked.seconds, checked.memory, agree, disagree)


def tell_all(scripts, results):
    """Tells the sums. Of lines and replies those of the scripts that agree. Whether all agree."""
    agree = [script for result in results for script in result.agree]
    disagree = sum(result.disagree for result in results)
    print(f"\nscripts {len(scripts)}, agree {len(agree)}, disagree {disagree}, "
          f"not computed {len(scripts) - len(agree) - disagree}")
    print(f"lines {sum(len(script.lines) for script in agree)}")
    for kind, count in sorted(sum(map(kinds, agree), Counter()).items()):
        print(f"{kind} {count}")
    print(f"{sum(result.seconds for result in results):.0f} s, "
          f"at most {max(result.memory for result in results)} MiB in a process")
    return len(agree) == len(scripts)


def main():
    chosen = options()
    reference = reference_scripts.Reference(chosen.reference)
    scripts = [reference.script(seed, chosen.lines, chosen.profile, chosen.regions, chosen.number)
               for seed in range(chosen.first, chosen.first + chosen.count)]
    with tempfile.TemporaryDirectory() as temporary:
        repository = definition_crate.Repository(chosen.work or temporary)
        results = [compare(reference, repository, scripts[at:at + chosen.together])
                   for at in range(0, len(scripts), chosen.together)]
    return 0 if tell_all(scripts, results) else 1


if __name__ == "__main__":
    sys.exit(main())
