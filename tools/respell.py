#!/usr/bin/env python3
# tools/respell.py: brings the repository's own definitions and lemmas to the spelling of today's Rattle, once, behind its port.py: words in snake
# case, and a dash only between two names of a lemma. It goes over crates/*/{src,specs,proofs}. Where a lemma would have its function's name it gets _lem, and is told.
import glob
import os
import re
import subprocess

TOP = os.path.dirname(os.path.dirname(os.path.abspath(__file__)))
KIT = os.path.dirname(subprocess.run(["rt", "doc"], capture_output=True, text=True, check=True).stdout.strip())
TOKEN = re.compile(r"[^\s(){}\[\],;.\"`⌜⌝«»]+")
DECLARED = re.compile(r"^(\s*)(?:unfoldable |abbrev )?(?:pub )?(?:unfoldable |abbrev )?(data |record |ruleset )?([^\s:(){},;.=|]+)((?: [^\s:(){},;.=|]+)*)\s*(?:[({].*)?:\s")
MADE = re.compile(r"/proofs/(?:.*/)?(?:Proof|Answers|Invariants)\.antt$|/proofs/\+?[a-z][^/]*/")


def texts():
    for kind in ("src/**/*.rt", "specs/**/*.antt", "proofs/**/*.antt"):
        yield from glob.glob(f"{TOP}/crates/*/{kind}", recursive=True)


def read(path):
    with open(path, encoding="utf-8") as f:
        return f.read()


# the library's words, and ours: what a dash may join
known = set()
for path in glob.glob(f"{KIT}/rattle/std/specs/*.antt") + glob.glob(f"{KIT}/rattle/core/specs/*.antt"):
    for names in re.findall(r"^pub use [^{\n]*\{([^}]*)\}", read(path), re.M):
        known |= set(re.split(r"[,\s]+", names))
declared = {}
stated = set()
for path in texts():
    if not path.endswith(".antt"):
        continue
    for line in read(path).split("\n"):
        m = DECLARED.match(line)
        if m and not re.match(r"\s*(--|use |pub use |mod |pub mod )", line):
            for name in [m.group(3)] + m.group(4).split():
                declared.setdefault(name, set()).add("made" if MADE.search(path) else "own")
                if "/specs/" in path:
                    known.add(name)
                    stated.add(name)
known |= set("append length take drop reverse map set zero suc plus minus times pow div mod eqb ltb leb cond elim".split())


def snake(word):
    return re.sub(r"(?<=[a-z0-9])([A-Z])", lambda m: "_" + m.group(1).lower(), word)


known |= {snake(w) for w in known if w and w[0].islower()}


def spelled(name):
    if not name or not (name[0].islower() or name[0] == "_") or not re.fullmatch(r"[A-Za-z0-9_'-]+", name):
        return name
    if name in stated:
        return snake(name.replace("-", "_"))
    parts = [snake(p) if p[:1].islower() else p for p in name.split("-")]
    out = parts[0]
    for before, part in zip(parts, parts[1:]):
        out += ("-" if before in known and part in known else "_") + part
    return out


turned = {}
for name, where in sorted(declared.items()):
    if "own" in where or snake(name) != name:
        new = spelled(name)
        if new != name:
            turned[name] = new
taken = {}
for name in declared:
    taken.setdefault(turned.get(name, name), []).append(name)
for new, names in sorted(taken.items()):
    if len(names) > 1:
        print("fall together:", new, "from", *names)
        # the lemma that would have its function's name gets _lem
        for name in names:
            if "-" in name and name not in stated:
                turned[name] = new + "_lem"
# names that a proof file gives to goals are Rattle's own
for name, where in declared.items():
    if where == {"made"} and snake(name) == name:
        turned.pop(name, None)
changed = 0
for path in texts():
    old = read(path)
    # in rows a lemma has the name of the definition that it is about
    new = TOKEN.sub(lambda m: m.group(0) if m.group(0) == "number-text" and "/crates/rows/" in path else turned.get(m.group(0), m.group(0)), old)
    if path.endswith(".rt"):
        # only names of antt: those in imports, contracts and comments; the code has none with a capital or a dash inside
        new = "\n".join(n if not re.match(r"\s*(let|if|match|fn|pub fn) ", o) else o for o, n in zip(old.split("\n"), new.split("\n")))
    if new != old:
        changed += 1
        with open(path, "w", encoding="utf-8") as f:
            f.write(new)
print(f"respell: {len(turned)} names, {changed} files")
