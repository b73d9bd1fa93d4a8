"""Scripts and their answers as definitions over the names of heap_world."""

import re

REFUSALS = {
    3: "NoProcess", 4: "Exited", 5: "ClassTaken", 6: "NoClass", 7: "ClassLimit", 8: "FieldTaken", 9: "NoRoot",
    10: "Null", 11: "NoField", 12: "NotArray", 13: "IndexRange", 14: "Misfit", 15: "Sealed", 16: "NotSealed",
    17: "TooLarge", 18: "ImageFull", 19: "HeapFull", 20: "ZygoteFull", 21: "ProcessTaken", 22: "NumberLimit",
}

# each verb's variant, and the forms of its words
VERBS = {
    "new": ("New", "name", "name"), "array": ("Array", "name", "kind", "count"), "weak": ("Weak", "name", "name"),
    "set": ("Set", "name", "name", "value"), "put": ("Put", "name", "count", "value"), "get": ("Get", "name", "name"),
    "at": ("At", "name", "count"), "copy": ("Copy", "name", "name"), "load": ("Load", "name", "name", "name"),
    "loadat": ("LoadAt", "name", "name", "count"), "drop": ("Drop", "name"), "show": ("Show", "name"),
    "seal": ("Seal",), "gc": ("Gc",), "fork": ("Fork", "name"), "exit": ("Exit",), "free": ("Free",),
    "pages": ("Pages",), "frames": ("Frames",), "dump": ("Dump",),
}

# the forms of replies but for refusals, and the variant of each; the groups are its words
REPLIES = tuple((re.compile(form), variant) for form, variant in (
    (r"ok", "Done"), (r"null", "Null"), (r"class (\d+)", "Class"), (r"(-?\d+)", "Number"),
    (r"#(\d+) (\S+)", "Shown"), (r"#(\d+)", "Object"), (r"kept (\d+) freed (\d+)", "Kept"),
    (r"regions (\d+)", "Regions"), (r"frames (\d+)", "Frames"), (r"dump (\d+) objects (\d+)", "Dumped"),
    (r"image (\d+) (\d+) zygote (\d+) (\d+) large (\d+) (\d+)", "Pages"),
))

SCRIPT_HEAD = """\
use Rattle.std.specs.Prelude.{ℕ, true, false, List, [], ◌∷◌, pos, negsuc, codes}
use Rattle.class_layout.specs.declared.kind.Kind.TheVariants as kind
use Rattle.class_layout.specs.declared.kind.Value.TheVariants as value
use Rattle.heap_world.specs.declared.command.Verb.TheVariants as verb
use Rattle.heap_world.specs.declared.reply.Reply.TheVariants as reply
use Rattle.heap_world.specs.declared.reply.Refusal.TheVariants as refusal
use Rattle.heap_world.specs.Run.{Line, Answer}
use Rattle.heap_world.specs.Examples.{line, answer, field}
use Rattle.CRATE.specs.Traces.{Trace, trace}
"""

TRACES = """\
-- What a line allows, and what its process has after it.
use Rattle.std.specs.Prelude.{ℕ, Bool, true, false, List, [], ◌∷◌, Option, None, Some, length}
use Rattle.heap_world.specs.Part.{Part, noted_count}
use Rattle.heap_world.specs.Run.{Line, step_line}
use Rattle.heap_world.specs.World.{World, Process, Stepped, process_named}

-- the reads that a line allows, and how many pages are touched and cards noted in its process
pub record Trace : Type 0 where
  pub allowed : ℕ
  pub touched : ℕ
  pub noted : ℕ

abbrev pub trace : ℕ → ℕ → ℕ → Trace
trace allowed touched noted = record { allowed = allowed; touched = touched; noted = noted }

abbrev pub trace_live : Bool → ℕ → Part → Trace
trace_live true allowed p = trace allowed 0 0
trace_live false allowed p = trace allowed (length p.touched) (noted_count p)

-- a process that has exited, or was never made, has none
abbrev pub trace_of : ℕ → Option Process → Trace
trace_of allowed None = trace allowed 0 0
trace_of allowed (Some q) = trace_live q.part.exited allowed q.part

abbrev pub trace_after : Stepped → List ℕ → Trace
trace_after s name = trace_of s.allowed (process_named s.world.processes name)

abbrev pub traces : World → List Line → List Trace
traces w [] = []
traces w (l ∷ ls) = let s = step_line w l in trace_after s l.command.process ∷ traces s.world ls
"""


def name_text(name):
    return f'(codes "{name}")'


def integer_text(number):
    return f"(pos {number})" if number >= 0 else f"(negsuc {-number - 1})"


def kind_text(kind):
    return f"kind.{kind.capitalize()}"


def value_text(value):
    if value[0] == "null":
        return "value.Null"
    if value[0] == "number":
        return f"(value.Number {integer_text(value[1])})"
    return f"(value.Root {name_text(value[1])})"


FORMS = {"name": name_text, "kind": kind_text, "count": str, "value": value_text}


def applied(constructor, words):
    return f"({' '.join((constructor, *words))})" if words else constructor


def class_text(name, parent, fields, statics):
    assert not statics
    declared = "".join(f"field {name_text(field)} {kind_text(kind)} ∷ " for field, kind in fields)
    return applied("verb.Class", (name_text(name), name_text(parent), f"({declared}[])"))


def verb_text(verb, words):
    if verb == "class":
        return class_text(*words)
    variant, *forms = VERBS[verb]
    return applied(f"verb.{variant}", [FORMS[form](word) for form, word in zip(forms, words, strict=True)])


def line_text(line):
    process, verb, *words = line.command
    return f"line {line.number} {name_text(process)} {verb_text(verb, words)}"


def refusal_text(reply):
    """A refusal, with its numbers where it has two."""
    number = re.match(r"E(\d+) ", reply)[1]
    counts = re.findall(r" (?:fill|size|free|needed|total) (\d+)", reply)
    return f"(reply.Refused {applied('refusal.' + REFUSALS[int(number)], counts)})"


def variant_of(reply, verb):
    """The variant of a reply that is no refusal, and the reply's words. A class may have the name gc."""
    variant, words = next((variant, found.groups()) for form, variant in REPLIES if (found := form.fullmatch(reply)))
    if variant in ("Object", "Shown") and verb in ("new", "array", "weak"):
        variant = "Made"
    return variant, words


def reply_text(reply, verb):
    if reply.startswith("E"):
        return refusal_text(reply)
    variant, words = variant_of(reply, verb)
    if variant == "Made":
        words = (words[0], "true" if reply.endswith(" gc") else "false")
    elif variant == "Shown":
        words = (words[0], name_text(words[1]))
    elif variant == "Number":
        words = (integer_text(int(words[0])),)
    return applied(f"reply.{variant}", words)


def kind_of_reply(reply, verb):
    """A word for the reply's kind: a variant, with `gc` where a collection went before, or the number of a refusal."""
    if reply.startswith("E"):
        return reply.split(" ")[0]
    variant = variant_of(reply, verb)[0]
    return "Made gc" if variant == "Made" and reply.endswith(" gc") else variant


def list_text(name, kind, items):
    body = "".join(f"{item}\n    ∷ " for item in items)
    return f"abbrev pub {name} : List {kind}\n{name} =\n    {body}[]\n"


def script_text(crate, script):
    """The definitions of a script: its lines, the answers, and the traces."""
    lines = map(line_text, script.lines)
    answers = (f"answer {line.number} {reply_text(line.reply, line.command[1])}" for line in script.lines)
    traces = (f"trace {line.allowed} {line.touched} {line.noted}" for line in script.lines)
    parts = (SCRIPT_HEAD.replace("CRATE", crate), list_text("lines", "Line", lines),
             list_text("told", "Answer", answers), list_text("traced", "Trace", traces))
    return "\n".join(parts)
