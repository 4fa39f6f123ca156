#!/usr/bin/env python3
"""Brings the names of this repository's own definitions and lemmas to the spelling of the library: words in snake case, modules in camel case.

usage: python3 tools/respell.py      at the top of the repository, once, right after port.py

In specs/ and proofs/ each name is respelled that is not imported from a library, whatever binds it; behind a dot, each name behind the name under
which a file imports a module of this repository, and each field of a record of specs/ and proofs/. In src/, the names that clauses import from a crate
of this repository. Functions and types of src/, what Rattle itself names in a proof of a function, strings, inputs and outputs stay. Each name that now
stands twice in a file is printed, to be looked at.
"""

import collections
import os
import re
import sys

TOKEN = re.compile(r"[^\s(){}.;,@\"«»\[\]`]+")
DECLARED = re.compile(r"(?m)^ *(?:(?:pub|abbrev|unfoldable|irreducible) )*(?:record |data )?([^\s(){}:,;.\"]+)(?: +[({][^\n]*?[)}])*(?: |\n +): ?(?P<type>[^\n]*)")
BOUND = re.compile(r"\blet ([^\s:=(){}]+)")
USE = re.compile(r"^ *(?:pub )?(?:ghost )?use ([^\s;{]+?)(?:\.\{([^;{}]*)\})?(?: as ([^\s;]+))?;?$", re.M)
MODULE = re.compile(r"Clause-(\d+(?:-\d+)*)")
# lemmas that would have the name of the definition that they are on
LEMMAS = {"calls-from", "channel-in", "distance-units", "energy-units", "in-bank"}

# and one that has the name of an imported definition now
IN_A_FILE = {"why/proofs/Left.antt": {"left_by": "left_by_lem"}}


def spelled(name):
    """The library's spelling of a name."""
    if re.fullmatch(r"Clause(-\d+)+", name):
        return "Clause" + name[len("Clause-"):].replace("-", "_")
    if name in LEMMAS:
        return name.replace("-", "_") + "_lem"
    # a dash beside an operator joins it to a name, and stays
    name = re.sub(r"(?<=[\w'])-(?=[\w'])", "_", name)
    name = re.sub(r"^([A-Z])Of$", lambda m: m[1].lower() + "_of", name)
    # GSM 06.10's names of long variables and operations begin with a capital
    name = re.sub(r"^L_", "l_", name)
    if name == name.upper():
        return name
    if name[:1].isupper() and "_" not in name:
        return name
    # words in capitals, then camel case
    name = re.sub(r"(?<=_)ACF(?=_|$)", "acf", name)
    return re.sub(r"(?<=[a-zα-ω0-9])([A-Z])(?=[a-z])", lambda m: "_" + m[1].lower(), name) if name[:1].islower() else name


def files(root, ends):
    for folder, dirs, names in os.walk(os.path.join(root, "crates")):
        dirs[:] = sorted(d for d in dirs if d not in ("out", ".git"))
        for f in sorted(names):
            if f.endswith(ends):
                yield os.path.join(folder, f)


def bare(text):
    """The text without its comments, which stand behind `--`."""
    return re.sub(r"(?m)(^|\s)--(\s.*)?$", "", text)


def declared(path, text):
    """The names that a file of specs/ or proofs/ declares, without those that Rattle asks for."""
    found = set()
    for m in DECLARED.finditer(bare(text)):
        if not re.match(r"(tie|goal)\.|statement\b", m["type"]) and not m["type"].startswith("{M : Type 1} → statement"):
            found.add(m[1])
    return found | set(BOUND.findall(bare(text)))


def asked(text):
    return {m[1] for m in DECLARED.finditer(bare(text)) if re.match(r"(tie|goal)\.", m["type"])}


def fields(text):
    """The fields of a file's records."""
    found = set()
    for m in re.finditer(r"(?m)^( *)(?:pub )?record [^\n]*where\n((?:\1 +[^\n]*\n|\n| *--[^\n]*\n)+)", text):
        found |= {f[1] for f in re.finditer(r"(?m)^ *(?:pub )?([^\s(){}:,;.]+) :", m[2])}
    return found


def main():
    root = os.getcwd()
    ours = {d for d in os.listdir(os.path.join(root, "crates"))}
    paths = list(files(root, ".antt"))
    texts = {p: open(p, encoding="utf-8").read() for p in paths}
    names = {p: declared(p, t) for p, t in texts.items()}
    every = set().union(*names.values())
    all_fields = {n for t in texts.values() for n in fields(t) if spelled(n) != n}

    def own(module):
        return module.startswith("Rattle.") and module.split(".")[1] in ours

    changed, kept = collections.Counter(), collections.Counter()
    for p in paths + list(files(root, ".rt")):
        text = texts.get(p) or open(p, encoding="utf-8").read()
        mine = set(names.get(p, ()))
        aliases, foreign = set(), set()
        for module, listed, alias in USE.findall(text):
            listed = [x.strip().split(" as ") for x in listed.split(",") if x.strip()]
            if own(module):
                mine |= {x[0] for x in listed} | {x[-1] for x in listed}
                aliases.add(alias or module.split(".")[-1])
            else:
                foreign |= {x[-1] for x in listed}
        there = set(TOKEN.findall(bare(text)))
        stays = asked(text) if p in texts else set()
        turn = dict(IN_A_FILE.get(os.path.relpath(p, os.path.join(root, "crates")), {}))
        if p.endswith(".antt"):
            mine |= {m[0] for m in TOKEN.finditer(bare(text)) if text[m.start() - 1:m.start()] != "."}
        for n in mine - foreign - stays:
            new = spelled(n)
            if new != n:
                if new in there and new not in mine or new in foreign or sum(spelled(x) == new for x in mine) > 1:
                    kept[n, new, os.path.relpath(p, root)] += 1
                turn[n] = new
        out, last = [], 0
        for m in TOKEN.finditer(text):
            n = m[0]
            before = text[max(0, m.start() - 60):m.start()]
            if before.endswith("."):
                lead = TOKEN.findall(before)[-1:] if not before.endswith(" .") else []
                if lead and lead[0] in aliases and lead[0] not in ("tie", "goal") and n in every:
                    new = spelled(n)
                elif n in all_fields and n not in stays and not re.search(r"\btie\.$", before):
                    new = spelled(n)
                else:
                    new = n
            else:
                new = turn.get(n, n)
                if n in all_fields and re.match(r" *=(?!=)", text[m.end():]) and re.search(r"record \{[^{}]*$|[;{]\s*$", before):
                    new = spelled(n)
            if new != n:
                changed[n, new] += 1
            out += [text[last:m.start()], new]
            last = m.end()
        out.append(text[last:])
        new = MODULE.sub(lambda m: spelled(m[0]), "".join(out))
        if new != text:
            with open(p, "w", encoding="utf-8") as f:
                f.write(new)
    for p in paths:
        if MODULE.search(os.path.basename(p)):
            os.rename(p, os.path.join(os.path.dirname(p), MODULE.sub(lambda m: spelled(m[0]), os.path.basename(p))))
    print(f"respelled: {len(changed)} names, {sum(changed.values())} places")
    for (n, new, p), _ in sorted(kept.items()):
        print(f"look: {p}: {n}: {new} stands there already")


if __name__ == "__main__":
    main()
