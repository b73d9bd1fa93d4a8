#!/usr/bin/env python3
"""Runs every example of docs/script.md, docs/dumps.md and examples/, and compares report and exit status with what stands there.

usage: tools/run_examples.py [--fast] [PROGRAM]

PROGRAM is crates/artheap_cli/out/artheap_cli if not given: ./build makes it. --fast leaves out scripts of more than
10,000 lines. The status is 0 where each example is as it says.

In docs/script.md an example is a block `script`, `pattern` or `bytes`, with its options behind that word, and the next
block `report`, where `..` in front stands for lines that aren't shown. Between them the page tells the status. In a
pattern `{0..9}` makes a line for each number, and `{x*100}` is 100 times x. In bytes each line ends as it says.
In docs/dumps.md a block `dump` stands for a script: in each line pairs of digits of base 16, and words behind them. It is
what `artheap read` takes, and a block `dump convert` what `artheap convert` takes: the next block is the `dump` that is
written then, or a report.
In examples/ the first line of a script names its words where it wants an option. Beside SCRIPT.script stand the files
that its dumps leave: SCRIPT.PROCESS.K.map is a table of addresses as it is, SCRIPT.PROCESS.K.listing what `artheap read`
prints of a dump.
"""

import os
import re
import subprocess
import sys
import tempfile
from collections import namedtuple

TOP = os.path.dirname(os.path.dirname(os.path.realpath(__file__)))

# where it stands, the words behind the program's name, the script, the status or None, the lines of the report, or the
# bytes where it is a dump, and the texts of the tables and of the listings of its dumps by their names, or None where it
# doesn't tell them
Example = namedtuple("Example", "place words script status report dumped")


def expanded(line):
    """The lines that a line of a pattern stands for."""
    line = re.sub(r"\{(.)\*(\d+)\}", lambda it: it[1] * int(it[2]), line)
    span = re.search(r"\{(\d+)\.\.(\d+)\}", line)
    if not span:
        return [line]
    return [line.replace(span[0], str(n)) for n in range(int(span[1]), int(span[2]) + 1)]


def script_of(kind, lines):
    if kind == "bytes":
        signs = {r"\n": "\n", r"\r": "\r", r"\t": "\t"}
        return re.sub(r"\\[nrt]", lambda it: signs[it[0]], "".join(lines)).encode()
    if kind == "dump":
        return bytes.fromhex(" ".join(re.match(r"(\s*[0-9a-f]{2}(?!\S))*", line)[0] for line in lines))
    if kind == "pattern":
        lines = [made for line in lines for made in expanded(line)]
    return "".join(f"{line}\n" for line in lines).encode()


def examples_of_page(file):
    with open(f"{TOP}/{file}", encoding="utf-8") as page:
        text = page.read()
    block = re.compile(r"^```(script|pattern|bytes|dump|report)( [^\n]*)?\n(.*?)^```$", re.M | re.S)
    given = None
    for found in block.finditer(text):
        kind, options, lines = found[1], (found[2] or "").split(), found[3].splitlines()
        is_converted = kind == "dump" and given is not None and given.words == ["convert"]
        if given and (kind == "report" or is_converted):
            told = re.search(r"status (\d)", text[end : found.start()])
            report = script_of(kind, lines) if is_converted else lines
            yield given._replace(status=int(told[1]) if told else None, report=report)
            given = None
        if kind != "report":
            place = f"{file}:{text.count(chr(10), 0, found.start()) + 1}"
            words = (options or ["read"]) if kind == "dump" else ["run", *options]
            given = Example(place, words, script_of(kind, lines), None, None, None)
            end = found.end()


def dumped_beside(folder, stem):
    """The texts of an example's tables and listings, by the names without the script's."""
    dumped = {}
    for name in os.listdir(folder):
        if name.startswith(f"{stem}.") and name.endswith((".map", ".listing")):
            with open(f"{folder}/{name}", encoding="utf-8") as text:
                dumped[name[len(stem) + 1 :]] = text.read()
    return dumped


def examples_of_folder(folder):
    for name in sorted(os.listdir(f"{TOP}/{folder}")):
        stem, kind = os.path.splitext(name)
        if kind != ".script":
            continue
        with open(f"{TOP}/{folder}/{name}", "rb") as script, open(f"{TOP}/{folder}/{stem}.report", encoding="utf-8") as report:
            text, lines = script.read(), report.read().splitlines()
        asked = re.match(rb"# artheap (run [^\n]*)\n", text)
        words = asked[1].decode().split() if asked else ["run"]
        refused = any(re.match(r"\d+: E\d", line) for line in lines)
        yield Example(f"{folder}/{name}", words, text, int(refused), lines, dumped_beside(f"{TOP}/{folder}", stem))


def dumped_in(program, folder):
    """The tables and the listings of the dumps that a run left in its folder."""
    dumped = {}
    for name in os.listdir(folder):
        stem, kind = os.path.splitext(name)
        with open(f"{folder}/{name}", "rb") as entry:
            if kind == ".hprof":
                listing = subprocess.run([program, "read"], stdin=entry, capture_output=True, check=True).stdout
                dumped[f"{stem}.listing"] = listing.decode()
            else:
                dumped[name] = entry.read().decode()
    return dumped


def different_line(told, wanted):
    """The first line that isn't as the example says, or None."""
    for line, want in zip([*told, "nothing"], [*wanted, "nothing"]):
        if line != want:
            return f"it says {want!r}, and the program {line!r}"
    return None


def different_report(printed, wanted):
    """How what was printed differs from the lines of a report, of which some in front may be left out, or None."""
    if printed and not printed.endswith(b"\n"):
        return "the program's last line has no line feed"
    lines = printed.decode(errors="replace").splitlines()
    if wanted[:1] == [".."]:
        wanted = wanted[1:]
        lines = lines[-len(wanted) :]
    return different_line(lines, wanted)


def different_bytes(printed, wanted):
    """How what was printed differs from these bytes, or None."""
    if printed == wanted:
        return None
    same = len(os.path.commonprefix([printed, wanted]))
    return f"it has {len(wanted)} bytes, and the program prints {len(printed)}, of which the first {same} are the same"


def difference(program, example):
    """What isn't as the example says, or None."""
    with tempfile.TemporaryDirectory() as folder:
        ran = subprocess.run([program, *example.words], input=example.script, capture_output=True, cwd=folder)
        dumped = dumped_in(program, folder)
    differs = different_bytes if isinstance(example.report, bytes) else different_report
    found = differs(ran.stdout, example.report)
    if found:
        return found
    if example.status is not None and ran.returncode != example.status:
        return f"it says status {example.status}, and the program ends with {ran.returncode}"
    if example.dumped is None:
        return None
    if dumped.keys() != example.dumped.keys():
        return f"it has {sorted(example.dumped)}, and the program leaves {sorted(dumped)}"
    for name, text in sorted(example.dumped.items()):
        found = different_line(dumped[name].splitlines(), text.splitlines())
        if found:
            return f"{name}: {found}"
    return None


def main():
    words = [it for it in sys.argv[1:] if it != "--fast"]
    if len(words) > 1 or any(it.startswith("-") for it in words):
        sys.exit(__doc__)
    program = os.path.realpath(words[0]) if words else f"{TOP}/crates/artheap_cli/out/artheap_cli"
    if not os.access(program, os.X_OK):
        sys.exit(f"{program} isn't there: ./build makes the program")
    ran = differ = left_out = 0
    for example in [*examples_of_page("docs/script.md"), *examples_of_page("docs/dumps.md"), *examples_of_folder("examples")]:
        if "--fast" in sys.argv and example.script.count(b"\n") > 10000:
            left_out += 1
            continue
        ran += 1
        found = difference(program, example)
        if found:
            differ += 1
            print(f"{example.place}: {found}", flush=True)
    print(f"{ran} examples ran, {differ} differ, {left_out} left out")
    sys.exit(1 if differ or not ran else 0)


main()
