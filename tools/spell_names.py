#!/usr/bin/env python3
"""Respells the repository's own definitions, lemmas and local names: `after-last` and `readAs` become `after_last` and `read_as`.

usage: python3 tools/spell_names.py    at the top of a checkout that port.py has turned; once

It goes over specs/, proofs/, the clauses of src/, the edits in must-fail/ and the names between backticks in README.md and
docs/. A name that a file brings in from a library keeps its spelling there, and so do the names that Rattle makes for a proof
(`invariant-loop`, `decreases-loop`). Where two names would fall together in one file, it stops and says so, and writes nothing.
"""

import collections
import glob
import re
import sys

TOKEN = re.compile(r"[^\s(){}\[\];,.\"@`:|?]+")
DECLARED = re.compile(
    r"^\s*((?:(?:pub|abbrev|unfoldable|record|data|module)\s+)*)([^\s(){},;:]+)\s*((?:\(.*?\)|\{.*?\})\s*)*:\s*.*$"
)
USE = re.compile(r"^\s*(?:pub )?(?:ghost )?use ([^\s{]+?)(?:\.\{([^}]*)\})?(?: as (\S+?))?;?$", re.M)
MADE = re.compile(r"(invariant|decreases)-")
# Names that would fall together with another, mostly lemmas with the definition that they speak of, and what they are called.
# The promises crate has its one-answer lines under the functions' names, and two such names alone.
APART = {
    n: n.replace("-", "_") + "_lem"
    for n in (
        "is-decoder is-encoder is-link is-time is-router bit-left tick-left receive-refusal take-accepted offer-accepted "
        "put_refused take-refused offer-refused looked-up no-credit-error fresh-time heard-effect token-effect put-discarded "
        "put-stored null-for nothing-held row-refused held-refused fresh-store state-first mode-at output-at output-in store_in "
        "mode-words left-at"
    ).split()
} | {"wentOn": "WentOn", "thrownAway": "ThrownAway", "routerPut": "puts_router", "Store-said": "store_said"}
# what is declared in a list of names (constructors, variables) and what a file calls what it brings in
LISTED = set(
    "isEnabled nullsExchanged linkDisabled timerAtLimit atNear atFar handedIn sentNull isOne asRefused "
    "routerTakes routerTakeLeft routerPuts routerPutLeft routerTold routerTakeTests routerRunTests routerRowTests "
    "routerPutTests routerHeldTests decoderTickLeft fctCharacter escCharacter behindEsc gotNull sentNull' gotNull' handedIn' "
    "refusalNumber no_Header".split()
)
# of the names apart, the ones that are fields of a record of laws; behind a dot any other is what Rattle makes of a function's name
FIELDS = set("is-decoder is-encoder is-link is-time is-router fresh-time nothing-held".split())


def ours(path):
    return path.startswith("Rattle.") and not path.startswith("Rattle.std.")


def antt_files():
    return sorted(glob.glob("crates/*/specs/**/*.antt", recursive=True) + glob.glob("crates/*/proofs/**/*.antt", recursive=True))


def code_files():
    return sorted(glob.glob("crates/*/src/**/*.rt", recursive=True) + glob.glob("crates/*/must-fail/*.edit"))


def code_of(text):
    return "\n".join(line for line in text.split("\n") if not line.strip().startswith("--"))


def brought_in(text):
    """The names that a file brings in from a library: (module path, names)."""
    names = set()
    for m in USE.finditer(text):
        if m.group(2) and not ours(m.group(1)):
            for n in m.group(2).split(","):
                names.add(n.strip().split(" as ")[-1].strip())
    return names


def wants(name):
    if MADE.match(name) or not re.match(r"[A-Za-z+\u03bc]", name):
        return False
    return "-" in name or "\u2032" in name or (name[0].islower() and re.search(r"[a-z][A-Z]", name))


def respelled(name):
    new = name.replace("\u2032", "'").replace("getD-", "get_or-")
    new = re.sub(r"(?<=[a-z0-9])([A-Z]+)(?=[A-Z][a-z]|$|-|\d)", r"-\1", new) if new[0].islower() else new
    if new[0].islower():
        new = re.sub(r"(?<=[A-Za-z0-9])([A-Z][a-z])", r"-\1", new)
        new = re.sub(r"(?<=[a-z])([A-Z])", r"-\1", new)
        new = new.lower()
    return re.sub(r"-+", "_", new)


def collect():
    names = set(LISTED)
    for f in antt_files():
        text = open(f, encoding="utf-8").read()
        lib = brought_in(text)
        for line in text.split("\n"):
            m = DECLARED.match(line)
            if m and not line.strip().startswith("--") and wants(m.group(2)):
                names.add(m.group(2))
        body = "\n".join(l for l in code_of(text).split("\n") if not USE.match(l))
        for m in TOKEN.finditer(body):
            if wants(m.group()) and "-" in m.group() and m.group() not in lib and body[m.start() - 1] != ".":
                names.add(m.group())
    return {n: respelled(n) for n in names} | {n: n.replace("-", "_") for n in APART if not re.search("[A-Z]", n)}


def apart(path):
    """The lemmas that are called otherwise in this file."""
    return {n: new for n, new in APART.items() if "/promises/" not in path or n in ("null-for", "routerPut")}


def clashes(turn):
    said = []
    for f in antt_files() + code_files():
        text = open(f, encoding="utf-8").read()
        if f.endswith(".rt"):
            text = "\n".join(text[a:b] for a, b in clauses(text))
        lib = brought_in(text)
        named = turn | apart(f)
        here = collections.defaultdict(set)
        body = re.sub(r"^(\s*(?:pub )?(?:ghost )?use )([^\s{]+)", r"\1", code_of(text), flags=re.M)
        for m in TOKEN.finditer(body):
            n = m.group()
            if body[m.start() - 1] == ".":
                continue
            here[named[n] if n in named and n not in lib else n].add(n)
        for new, olds in here.items():
            if len(olds) > 1:
                said.append(f"{f}: {', '.join(sorted(olds))} would all be {new}")
    return said


def clauses(text):
    """Where the ghost parts of a source file stand: imports, and the braces behind requires, ensures and ghost."""
    found = [m.span() for m in re.finditer(r"^\s*ghost use [^;]*;", text, re.M)]
    for m in re.finditer(r"^\s*(?:requires|ensures|ghost(?! use))\b[^{;]*\{", text, re.M):
        depth, i = 1, m.end()
        while depth:
            depth += {"{": 1, "}": -1}.get(text[i], 0)
            i += 1
        found.append((m.end(), i))
    return found


def turned(text, turn, other, lib):
    def one(m):
        n = m.group()
        if n in lib:
            return n
        if n in other and (n in FIELDS or m.start() == 0 or text[m.start() - 1] != "."):
            return other[n]
        return turn.get(n, n)

    return TOKEN.sub(one, text)


def turn_antt(text, turn, other):
    lib = brought_in(text)
    out = []
    for line in text.split("\n"):
        m = re.match(r"^(\s*(?:pub )?use )([^\s{]+)(.*)$", line)
        if not m:
            out.append(turned(line, turn, other, lib))
        elif ours(m.group(2)):
            out.append(m.group(1) + m.group(2) + turned(m.group(3), turn, other, lib))
        else:
            # the library's own names stay, what they are called here does not
            out.append(re.sub(r"( as )(\S+?)(?=[,}]|$)", lambda a: a.group(1) + turn.get(a.group(2), a.group(2)), line))
    return "\n".join(out)


def turn_code(text, turn, other):
    parts, at = [], 0
    for a, b in sorted(clauses(text)):
        parts += [text[at:a], turned(text[a:b], turn, other, set())]
        at = b
    return "".join(parts) + text[at:]


def main():
    turn = {a: b for a, b in collect().items() if a != b}
    said = clashes(turn)
    if said:
        print("\n".join(said))
        print(f"{len(said)} places fall together: nothing was written")
        return 1
    for f in antt_files() + code_files() + ["README.md"] + sorted(glob.glob("docs/*.md")):
        with open(f, encoding="utf-8") as h:
            text = h.read()
        other = apart(f)
        if f.endswith(".antt"):
            new = turn_antt(text, turn, other)
        elif f.endswith(".rt"):
            new = turn_code(text, turn, other)
        elif f.endswith(".edit"):
            new = turned(text, turn, other, set())
        else:
            new = re.sub(r"`[^`\n]+`", lambda m: turned(m.group(), turn, {}, set()), text)
        if new != text:
            with open(f, "w", encoding="utf-8") as h:
                h.write(new)
    print(f"{len(turn)} names are in snake case")
    return 0


if __name__ == "__main__":
    sys.exit(main())
