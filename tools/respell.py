#!/usr/bin/env python3
"""Respells the repository's own definitions and lemmas, once, right after the kit's port.py: words in snake case, types and facts in
camel case, and a dash only where it joins two names.

usage: python3 tools/respell.py [--list]      at the top of the repository; --list prints the names and writes nothing

Symbols of the standards stay as they are (E, D, FL, FO, FI, KL, S7 ..). Functions of src/, strings and comments are left alone.
"""

import os
import re
import sys

# A dash that joins two names, as a function applied to another, stays.
JOINED = {
    "number-bytes": "number-bytes",
    "bytes-number": "bytes-number",
    "bytes-of-number": "bytes_of-number",
    "length-bytes": "length-bytes",
    "length-flat": "length-flat",
    "length-blocks": "length-blocks",
    "length-outs": "length-outs",
    "length-padded": "length-padded",
    "length-put": "length-put",
    "length-putMid": "length-put_mid",
    "blocks-flat": "blocks-flat",
    "flat-blocks": "flat-blocks",
    "bytes-flip": "bytes-flip",
    "flat-flip": "flat-flip",
    "D-E": "D-E",
    "E-D": "E-D",
    "D-E-rounds": "D-E_rounds",
    "E-D-rounds": "E-D_rounds",
    "join-split": "join-split",
    "split-join": "split-join",
    "open-seal": "open-seal",
    "seal-open": "seal-open",
    "sub-sub": "sub-sub",
    "sound-inverse": "sound-inverse",
    "sound-inTurn": "sound-in_turn",
    "sound-mixing": "sound-mixing",
}
# Facts, and names that would fall together with another.
CHOSEN = {
    "S7-stands": "S7Stands",
    "S9-stands": "S9Stands",
    "last-register": "last_register_same",
    "sealed-last": "sealed_last_is",
    "opened-last": "opened_last_is",
}
# Where a function of src/ has a definition's new name, the definition is imported under another.
ALIASES = {
    "crates/mode/src/padding.rt": {"tailLength": "tail_length_of"},
    "crates/misty1/src/rounds.rt": {"twoRounds": "round_pair"},
    "crates/line/src/replay.rt": {"bytesFit": "do_bytes_fit"},
    "crates/walkthrough/src/list.rt": {
        "handedOn": "call_handed_on",
        "secondCalls": "calls_handed_on",
        "bytesWritten": "bytes_written_by",
        "bytesTaken": "bytes_taken_by",
    },
}
# Lists of goals and steps in the folders of proofs/ are named by the check, not here.
MADE = re.compile(r"/proofs/.+/")
TOKEN = re.compile(r"[^\s(){}\[\],;.:|λ↦\"]+")
DECLARED = re.compile(r"^\s*(?:abbrev |unfoldable )?(?:pub )?(?:record |data )?([^\s:(){}.,;]+)(?: \([^)]*\)| \{[^}]*\})* :(?: |$)")
CAMEL = re.compile(r"(?<=[a-z0-9])(?=[A-Z])")


def sources():
    for root, dirs, files in os.walk("crates"):
        dirs[:] = sorted(d for d in dirs if d != "out")
        for f in sorted(files):
            if f.endswith((".antt", ".rt")):
                yield os.path.join(root, f)


def snake(name):
    """lowerCamel to snake case; a symbol of capitals stays one word."""
    words = [w for part in name.split("_") for w in CAMEL.split(part)]
    return "_".join(w if not w or re.fullmatch(r"[A-Z]{2,}[0-9]?", w) else w[0].lower() + w[1:] for w in words)


def new_name(name):
    if name in JOINED:
        return JOINED[name]
    if name in CHOSEN:
        return CHOSEN[name]
    name = name.replace("-", "_")
    return snake(name) if name[0].islower() else name


def names():
    found = {}
    for p in sources():
        if p.endswith(".antt") and not MADE.search(p):
            with open(p, encoding="utf-8") as f:
                for line in f:
                    m = DECLARED.match(line)
                    if m:
                        found.setdefault(m.group(1), set()).add(p)
    # names that ghost imports of src/ give a definition, and parameters, are respelled as well
    for p in sources():
        with open(p, encoding="utf-8") as f:
            for line in f:
                code = re.sub(r"(--|//).*", "", line)
                for t in TOKEN.findall(code):
                    if re.fullmatch(r"[a-z][a-z0-9_]*(?:[A-Z][A-Za-z0-9]*)+", t) and len(t) > 3:
                        found.setdefault(t, set()).add(p)
    return found


def together(turned, found):
    by_new = {}
    for old, new in turned.items():
        by_new.setdefault(new, set()).add(old)
    said = []
    for new, olds in sorted(by_new.items()):
        if new in found:
            olds = olds | {new}
        if len(olds) > 1:
            said.append(f"{new}: {', '.join(sorted(olds))}: {sorted(set().union(*(found[o] for o in olds)))}")
    return said


def respell(path, turned):
    with open(path, encoding="utf-8") as f:
        text = f.read()
    alias = ALIASES.get(path, {})
    made = bool(MADE.search(path))
    out = []
    for line in text.splitlines(keepends=True):
        cut = re.search(r"--|//", line)
        code, rest = (line[: cut.start()], line[cut.start() :]) if cut else (line, "")
        ghost = path.endswith(".antt") or re.match(r"\s*(pub )?(ghost|requires|ensures)\b", code) or "⟦" in code

        def turn(m):
            t, before = m.group(0), code[: m.start()]
            if before.count('"') % 2:
                return t
            if made and before.endswith(".") and re.search(r"\b(goal|c|l|w)\.[^\s]*$", before):
                return t
            if t in alias:
                return f"{turned[t]} as {alias[t]}" if code.lstrip().startswith("ghost use") else alias[t]
            if t in turned and (ghost or not re.fullmatch(r"[a-z0-9_]+", t)):
                return turned[t]
            return t

        out.append(TOKEN.sub(turn, code) + rest)
    new = "".join(out)
    if new != text:
        with open(path, "w", encoding="utf-8") as f:
            f.write(new)
    return new != text


def main():
    found = names()
    turned = {n: new_name(n) for n in found if n not in ("use", "where") and new_name(n) != n}
    for line in together(turned, found):
        print("fall together: " + line)
    if "--list" in sys.argv:
        for old in sorted(turned):
            print(old, "->", turned[old])
        return
    print(sum(respell(p, turned) for p in sources()), "files")


if __name__ == "__main__":
    main()
