#!/usr/bin/env python3
"""Respells the repository's own definitions and lemmas as Rattle spells words today: snake case for words, camel case for facts and types.

usage: python3 tools/respell.py [--report]     at the top of the repository; --report only lists the new names and those that fall together

An own name is one that a signature, a `let`, a record's field or an import's `as` of specs/ or proofs/ declares with a dash in it. A dash beside an operator, as in `bytes-++`,
stays. In the files of one function's proof (proofs/F/..) the names that Rattle makes of the source keep the source's spelling: `is-after` becomes `is_after`.
Code spans of the README, CONTRIBUTING and docs/ are respelled too. Strings, code, must-fail edits, inputs and outputs keep their words. The script is run once,
after the toolchain's own port.py; it is kept so that the renaming can be done again and compared.
"""

import glob
import re
import sys

BREAK = re.compile(r"([\s(){}\[\].,;λ∣|`\"]+)")
SIGNATURE = re.compile(r"^\s*(?:(?:unfoldable|abbrev|pub|let)\s+)*([^\s:(){},.;]+)(?:\s+[({][^)}]*[)}])*\s+:\s")
LET = re.compile(r"\blet\s+([^\s:=(){},.;]+)")
ALIAS = re.compile(r"\bas\s+([^\s:=(){},.;]+)")
TYPE = re.compile(r"^\s*(?:pub\s+)?(?:record|data)\s+([^\s:(){}]+)")

# what Rattle itself calls the parts of a name that it makes
MADE = {
    "in-default": "in_default",
    "in-ok": "in_ok",
    "in-err": "in_err",
    "from-residual": "from_residual",
    "type-inv": "type_inv",
    "invariant-of": "invariant_of",
}


def ghost_files():
    return sorted(glob.glob("crates/*/specs/**/*.antt", recursive=True) + glob.glob("crates/*/proofs/**/*.antt", recursive=True))


def of_one_function(path):
    return re.match(r"crates/[^/]+/proofs/.+/", path) is not None


def respelled(name):
    if name[0].isupper():
        head, *rest = name.split("-")
        return head + "".join(p[0].upper() + p[1:] for p in rest)
    parts = name.split("-")
    new = parts[0]
    for before, after in zip(parts, parts[1:]):
        words = re.fullmatch(r"[\w']+", before) and re.fullmatch(r"[\w']+", after)
        new += ("_" if words else "-") + after
    return new


def own_names():
    names = set()
    for path in ghost_files():
        for line in open(path, encoding="utf-8"):
            if line.lstrip().startswith("--"):
                continue
            found = [m.group(1) for m in (TYPE.match(line),) if m]
            if "goal." not in line:
                found += [m.group(1) for m in (SIGNATURE.match(line),) if m]
            found += LET.findall(line) + (ALIAS.findall(line) if line.startswith("use ") else [])
            names.update(n for n in found if "-" in n and re.search(r"\w", n) and respelled(n) != n)
    return names


def words_of_source(crate):
    words = set()
    for path in glob.glob(f"crates/{crate}/src/**/*.rt", recursive=True):
        text = re.sub(r"//.*", "", open(path, encoding="utf-8").read())
        words.update(w for w in re.findall(r"\b[a-z]\w*_\w+\b", text))
    return sorted(words, key=len, reverse=True)


def made_name(token, words):
    for old, new in list(MADE.items()) + [(w.replace("_", "-"), w) for w in words]:
        token = re.sub(rf"(?<![\w']){re.escape(old)}(?![\w'])", new, token)
    return token


def turn(text, names, words):
    parts = BREAK.split(text)
    for i in range(0, len(parts), 2):
        if parts[i] in names:
            parts[i] = names[parts[i]]
        elif words and "-" in parts[i]:
            parts[i] = made_name(parts[i], words)
    return "".join(parts)


def turn_source(text, names):
    # strings keep their words
    return "".join(p if i % 2 else turn(p, names, None) for i, p in enumerate(re.split(r'("(?:[^"\\\n]|\\.)*")', text)))


def turn_page(text, names):
    return re.sub(r"`[^`\n]+`", lambda m: turn(m.group(0), names, None), text)


def report(names):
    by_new = {}
    for old, new in names.items():
        by_new.setdefault(new, []).append(old)
    for new, olds in sorted(by_new.items()):
        if len(olds) > 1:
            print(f"fall together: {olds} -> {new}")
    tokens = {}
    for path in ghost_files() + glob.glob("crates/*/src/**/*.rt", recursive=True):
        for t in set(BREAK.split(open(path, encoding="utf-8").read())):
            tokens.setdefault(t, set()).add(path)
    for old, new in sorted(names.items()):
        both = sorted(tokens.get(new, set()) & tokens.get(old, set()))
        if both:
            print(f"both stand: {old} and {new} in {both}")
        elif new in tokens:
            print(f"elsewhere: {old} becomes {new}, which {sorted(tokens[new])} has")


def main():
    if sys.argv[1:] not in ([], ["--report"]):
        raise SystemExit(__doc__)
    names = {n: respelled(n) for n in own_names()}
    if sys.argv[1:]:
        report(names)
        return
    for path in ghost_files():
        crate = path.split("/")[1]
        words = words_of_source(crate) if of_one_function(path) else None
        rewrite(path, lambda t: turn(t, names, words))
    for path in sorted(glob.glob("crates/*/src/**/*.rt", recursive=True)):
        rewrite(path, lambda t: turn_source(t, names))
    for path in ["README.md", "CONTRIBUTING.md", *sorted(glob.glob("docs/*.md"))]:
        rewrite(path, lambda t: turn_page(t, names))
    print(f"{len(names)} names respelled")


def rewrite(path, change):
    with open(path, encoding="utf-8") as f:
        old = f.read()
    new = change(old)
    if new != old:
        with open(path, "w", encoding="utf-8") as f:
            f.write(new)


main()
