#!/usr/bin/env python3
"""Brings this repository's own definitions and lemmas to the spelling of today's Rattle: snake case, for what was in camel
case or joined by dashes. It is run once, after the kit's port.py, at the top of the repository; it goes by text and proves nothing.

What stays: names of src/, strings, the kit's names, and the names of goals that Rattle makes.
With --list it changes nothing and prints the names, and those that would fall together.
"""

import collections
import glob
import re
import sys

WORD = re.compile(r"[^\s(){}\[\],;.:`\"λ]+")
DECLARED = re.compile(r"^\s*(?:(?:abbrev|unfoldable|pub|record|data|module)\s+)*([^\s(){}\[\],;.:`\"]+)\s*(?:\{[^}]*\}\s*)?(?::|\()(?=[\s(])")
MADE = re.compile(r"^(returns|loop\d*|if\d*|in|cast|sub|mul|add|div|rem|shl|shr|overflow|nonzero|array|element|slice|enum|shared|invariant|decreases|part|prefix|sets)-|-requires(-\d+)?$|-spec$")

# definitions that are in the spelling, the kit's among them, whose laws have their names with dashes
TAKEN = {"bool_byte", "entry_at", "ones_in", "put_mid"}


def sources():
    for pattern in ("crates/*/specs/**/*.antt", "crates/*/proofs/**/*.antt", "crates/*/src/**/*.rt", "crates/*/must-fail/*.edit"):
        yield from sorted(glob.glob(pattern, recursive=True))


def text_of(path):
    with open(path, encoding="utf-8") as f:
        return f.read()


def snake(name):
    s = re.sub(r"(?<=[a-z0-9])([A-Z])", lambda m: "_" + m.group(1).lower(), name) if name[0].islower() else name
    return s.replace("-", "_")


def goals_of(text):
    """The names of goals that Rattle made for the function of this proof."""
    return set(re.findall(r"Need-([^\s(){}\[\],;.:]+)", text)) | {w for w in WORD.findall(text) if MADE.search(w)}


def imported(text):
    """The names that a file takes from the kit."""
    names = set()
    for path, items in re.findall(r"^\s*(?:ghost )?use ([^\s{;]*)\{([^}]*)\}", text, re.M):
        if not path.startswith("Rattle.") or path.startswith("Rattle.std."):
            names |= {w for item in items.split(",") for w in [item.split(" as ")[-1].strip()]}
    return names


def names_of():
    """Each declared name that is not in the spelling, with its new one. A lemma that would have a definition's name gets _lem."""
    found = {}
    for path in sources():
        if not path.endswith(".antt"):
            continue
        text = text_of(path)
        kept = imported(text) | (goals_of(text) if "/Proof" in path else set())
        for line in text.split("\n"):
            if line.lstrip().startswith("--") or line.startswith("use "):
                continue
            m = DECLARED.match(line)
            name = m.group(1) if m else ""
            if name and not name.startswith("+") and name not in kept and snake(name) != name:
                found[name] = snake(name)
    definitions = {found[name] for name in found if "-" not in name} | TAKEN
    for name in found:
        if "-" in name and found[name] in definitions:
            found[name] += "_lem"
    return found


def turned(line, names, kept):
    return WORD.sub(lambda m: names[m.group(0)] if m.group(0) in names and m.group(0) not in kept else m.group(0), line)


def main():
    names = names_of()
    if "--list" in sys.argv:
        new = collections.defaultdict(list)
        for old in names:
            new[names[old]].append(old)
        used = collections.Counter(w for p in sources() for w in WORD.findall(text_of(p)))
        for name, olds in sorted(new.items()):
            print(name, *olds, "TOGETHER" if len(olds) > 1 else "", "USED %d" % used[name] if used[name] else "")
        return
    for path in sources():
        text = text_of(path)
        kept = imported(text) | (goals_of(text) if "/Proof" in path else set())
        lines = []
        for line in text.split("\n"):
            code, mark, note = line.partition("--") if path.endswith(".antt") else (line, "", "")
            note = re.sub(r"`[^`]*`", lambda m: turned(m.group(0), names, kept), note)
            lines.append(turned(code, names, kept) + mark + note)
        after = "\n".join(lines)
        if after != text:
            with open(path, "w", encoding="utf-8") as f:
                f.write(after)


main()
