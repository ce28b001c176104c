#!/usr/bin/env python3
"""Lists the places in crates/*/src that docs/DESIGN-PASS.md counts, by point.

    python3 tools/places.py [POINT ..] [--at COMMIT] [--counts]

Without --at it reads the work tree. A place is a file, a line and what stands there. It looks at the text alone, so that a row is a place to look at: some are no place of
the point at all, and docs/DESIGN-PASS.md says which."""
import collections
import difflib
import re
import subprocess
import sys


def sources(commit):
    if commit:
        names = subprocess.run(["git", "ls-tree", "-r", "--name-only", commit, "crates"], capture_output=True, text=True, check=True).stdout.split()
    else:
        names = subprocess.run(["git", "ls-files", "-co", "--exclude-standard", "crates"], capture_output=True, text=True, check=True).stdout.split()
    for name in sorted(set(names)):
        if re.fullmatch(r"crates/\w+/src/(\w+/)*\w+\.rt", name):
            if commit:
                text = subprocess.run(["git", "show", f"{commit}:{name}"], capture_output=True, text=True, check=True).stdout
            else:
                try:
                    text = open(name, encoding="utf-8").read()
                except FileNotFoundError:
                    continue
            yield name, text


class Function:
    def __init__(self, name, line, head, comment, body):
        self.name, self.line, self.head, self.comment, self.body = name, line, head, comment, body
        self.clauses = re.findall(r"(requires|ensures)\s*(\w*)\s*\{ (.*) \}$", head, re.M)
        answer = re.search(r"->\s*([^\n]+?)(?:\s*where)?$", re.split(r"\n\s*(?:requires|ensures)", head)[0].rstrip(" {\n"), re.M)
        self.answer = answer.group(1).strip() if answer else ""
        arguments = re.search(r"\((.*?)\)\s*(?:->|\{|\n|$|;)", re.split(r"\n\s*(?:requires|ensures)", head)[0], re.S)
        self.arguments = re.sub(r"\s+", " ", arguments.group(1)) if arguments else ""


def functions(text):
    lines = text.split("\n")
    i = 0
    while i < len(lines):
        m = re.match(r"(\s*)(?:pub(?:\(crate\))? )?fn (\w+)", lines[i])
        if not m:
            i += 1
            continue
        start, indent = i, m.group(1)
        comment = []
        k = i - 1
        while k >= 0 and re.match(r"\s*(//|#\[)", lines[k]):
            comment.insert(0, lines[k].strip())
            k -= 1
        while i < len(lines) and not re.search(r"(^|\s)\{(\})?$|;$", lines[i]):
            i += 1
        head = "\n".join(lines[start : i + 1])
        end = i
        while end < len(lines) and not (lines[end] == indent + "}" or lines[end].endswith("{}") or lines[end].endswith(";") and end == i):
            end += 1
        yield Function(m.group(2), start + 1, head, " ".join(comment), "\n".join(lines[i : end + 1]))
        i = end + 1


def crate(name):
    return name.split("/")[1]


def code(text):
    """Lines with their numbers, comments and clauses blanked."""
    for number, line in enumerate(text.split("\n"), 1):
        if not re.match(r"\s*(//|ghost |requires|ensures)", line):
            yield number, line


def point_1(files):
    """Enums of the shape of Option or Result, numbers for refusals and kinds, answers by a flag, numbers that stand for "none"."""
    for name, text in files:
        for number, line in code(text):
            if re.match(r"(pub(\(crate\))? )?enum ", line):
                yield name, number, line.strip()
            if re.match(r"(pub )?const \w+: u8 =", line):
                yield name, number, line.strip()
        for f in functions(text):
            if re.search(r"-> u8\b", f.head) and "self" in f.arguments or f.answer == "u8":
                yield name, f.line, f"fn {f.name} -> u8"
            if "&mut" in f.arguments and f.answer == "bool":
                yield name, f.line, f"fn {f.name}: a change told by a bool"
            if f.answer in ("usize", "u16", "u64") and re.search(r"where there is none|0 where|where it has none|past the records", f.comment):
                yield name, f.line, f"fn {f.name} -> {f.answer}: a number for none"
            if f.answer in ("usize", "u16", "u64") and re.search(r"return 0;|_ => 0,", f.body):
                yield name, f.line, f"fn {f.name} -> {f.answer}: 0 for none"


def tokens(f):
    return re.findall(r"\w+|[^\w\s]", f.body.split("\n", 1)[1] if "\n" in f.body else "")


def point_2(files):
    """Functions and types of one name in two crates, and pairs of functions whose bodies are alike to four fifths."""
    where = collections.defaultdict(list)
    bodies = []
    for name, text in files:
        if crate(name) in ("examples", "vectors"):
            continue
        for f in functions(text):
            bodies.append((name, f, tokens(f)))
        for number, line in code(text):
            m = re.match(r"(?:pub(?:\(crate\))? )?(struct|enum) (\w+)", line)
            if m:
                where[m.group(1) + " " + m.group(2)].append((name, number))
    for what in sorted(where):
        if len({crate(n) for n, _ in where[what]}) > 1:
            for n, line in where[what]:
                yield n, line, what
    for a in range(len(bodies)):
        for b in range(a + 1, len(bodies)):
            (n, f, x), (m, g, y) = bodies[a], bodies[b]
            if min(len(x), len(y)) < 12 or max(len(x), len(y)) > 1.5 * min(len(x), len(y)):
                continue
            match = difflib.SequenceMatcher(None, x, y, autojunk=False)
            if match.quick_ratio() >= 0.8 and match.ratio() >= 0.8:
                yield n, f.line, f"fn {f.name} and fn {g.name} of {m}:{g.line}"


def point_3(files):
    """Loops over a range of numbers, and loops with a count kept by hand."""
    for name, text in files:
        for number, line in code(text):
            if re.search(r"\bfor \w+ in .*\.\.", line) or re.search(r"\bwhile\b", line):
                yield name, number, line.strip()


def point_4(files):
    """Orders, conversions, texts and copies written by hand."""
    for name, text in files:
        for f in functions(text):
            if f.name in ("compare", "of", "number", "reason", "from_zero", "below_zero") or f.answer == "&'static str":
                yield name, f.line, f"fn {f.name} -> {f.answer}"
            runs = re.findall(r"(?:\b(\w+): \w+\.\1,\s*){2,}", f.body)
            if runs:
                yield name, f.line, f"fn {f.name}: {len(runs)} value(s) copied field by field"


def point_5(files):
    """Facts in the `requires` of three or more functions of a crate, and parameters that three or more take together."""
    facts = collections.defaultdict(list)
    groups = collections.defaultdict(list)
    for name, text in files:
        for f in functions(text):
            for kind, label, fact in f.clauses:
                if kind == "requires":
                    facts[crate(name), re.sub(r"\.(now|old)\b", "", fact)].append((name, f.line, f.name))
            arguments = re.findall(r"(\w+): ([^,()]+(?:\([^)]*\))?)", f.arguments)
            names = [f"{n}: {re.sub(chr(39) + '[a-z]+ ', '', t).strip()}" for n, t in arguments]
            for a in range(len(names)):
                for b in range(a + 1, len(names)):
                    groups[crate(name), names[a], names[b]].append((name, f.line, f.name))
    for (c, fact), uses in sorted(facts.items()):
        if len(uses) >= 3:
            yield uses[0][0], uses[0][1], f"requires {{ {fact} }} in {len(uses)} functions of {c}"
    for (c, a, b), uses in sorted(groups.items()):
        if len(uses) >= 3 and c not in ("demo", "both_stores", "vectors", "examples"):
            yield uses[0][0], uses[0][1], f"({a}, {b}) in {len(uses)} functions of {c}"


def point_6(files):
    """Structs that hold an array with a length beside it, or two tables; arguments that are filled, with an answer that tells how far."""
    for name, text in files:
        for m in re.finditer(r"^(?:pub(?:\(crate\))? )?struct (\w+)[^{;]*\{(.*?)^\}", text, re.M | re.S):
            fields = m.group(2)
            arrays = len(re.findall(r": \[[^\]]*;", fields))
            slices = len(re.findall(r": &'?\w* ?mut \[", fields))
            counts = re.findall(r"\b(\w*len|count|used|held|size|left)\b:", fields)
            if arrays or (slices and counts) or slices > 1:
                yield name, text[: m.start()].count("\n") + 1, f"struct {m.group(1)}"
        for f in functions(text):
            if re.search(r"&mut \[u8(;|\])", f.arguments) and re.search(r"\busize\b", f.answer):
                yield name, f.line, f"fn {f.name} fills its argument -> {f.answer}"


def point_7(files):
    """Tables of functions, and parameters that say which step to run."""
    for name, text in files:
        for number, line in code(text):
            if re.search(r"\[fn\(|: fn\(|dyn Fn|step: |which: ", line):
                yield name, number, line.strip()


POINTS = {"1": point_1, "2": point_2, "3": point_3, "4": point_4, "5": point_5, "6": point_6, "7": point_7}


def main():
    arguments = sys.argv[1:]
    commit = None
    if "--at" in arguments:
        at = arguments.index("--at")
        commit = arguments[at + 1]
        del arguments[at : at + 2]
    counts = "--counts" in arguments
    wanted = [a for a in arguments if a in POINTS] or sorted(POINTS)
    files = list(sources(commit))
    for point in wanted:
        places = sorted(set(POINTS[point](files)))
        print(f"point {point}: {len(places)}")
        if not counts:
            for name, line, what in places:
                print(f"  {name}:{line}: {what}")


main()
