#!/usr/bin/env python3
"""Brings the names of this repository's definitions and lemmas to today's spelling: words in snake case, facts and types in
upper camel case. A dash stays where it joins the names of two definitions, as in `toe-means`, and else becomes `_`.

usage: tools/respell.py [--list]      at the top of the repository, right after the kit's own script; --list only prints the names

Names that Rattle makes, Rust's names, strings and prose keep their spelling.
"""

import os
import re
import sys

TOKEN = re.compile(r"[^\s(){}\[\];.,\"]+")
CAMEL = re.compile(r"^[a-z][a-z0-9']*[A-Z]")
DECLARED = re.compile(r"^\s*(?:abbrev |unfoldable )*(?:pub )?(?:abbrev |unfoldable )*([^\s(){}:.,;\[\]\"]+(?: [^\s(){}:.,;\[\]\"=]+)*) : (.*)$")
TYPE = re.compile(r"^\s*(?:pub )?(?:record|data) ([^\s(){}:]+)")
# names that fall together with another, or read badly by the rule
BY_HAND = {
    "addR": "add_ratio",
    "mulR": "mul_ratio",
    "negR": "neg_ratio",
    "invR": "inv_ratio",
    "head-of": "head_of_lem",
    "is-above": "is_above_lem",
    "is-grey": "is_grey_lem",
    "number-text": "number_text_lem",
    "recalled-from": "recalled_from_lem",
    "root-twice": "root_twice_lem",
    "rightStack": "right_stack",
    "freshStack": "fresh_stack",
    "N-is": "N_is",
}


def files(ends):
    for folder, dirs, names in os.walk("crates"):
        dirs[:] = sorted(d for d in dirs if d != "out")
        for name in sorted(names):
            if name.endswith(ends):
                yield os.path.join(folder, name)


def read(path):
    with open(path, encoding="utf-8") as f:
        return f.read()


def snake(part):
    """linearSrgbOfOklab, mapLC, m1Inv, addP"""
    part = re.sub(r"([a-z0-9'])([A-Z])", r"\1_\2", part)
    part = re.sub(r"([A-Z])([A-Z][a-z])", r"\1_\2", part)
    return part.lower()


def declared():
    """Each declared name of an .antt file: definitions of specs/ and fields of records, facts and types, and the rest."""
    words, facts, rest = set(), set(), set()
    for path in files(".antt"):
        record = None
        for line in read(path).split("\n"):
            if line.strip().startswith("--"):
                continue
            m = TYPE.match(line)
            if m:
                facts.add(m.group(1))
                record = len(line) - len(line.lstrip()) if "record" in line.split(m.group(1))[0] and line.rstrip().endswith("where") else None
                continue
            if record is not None and line.strip() and len(line) - len(line.lstrip()) <= record:
                record = None
            m = DECLARED.match(line)
            if not m or m.group(2).startswith("goal."):
                continue
            for name in m.group(1).split():
                if re.search(r"(^|→ )Type 0$", m.group(2)):
                    facts.add(name)
                elif record is not None:
                    rest.add(name)
                elif "/specs/" in path and re.match(r"^\s*(abbrev|unfoldable)", line):
                    words.add(name)
                else:
                    rest.add(name)
    for path in files((".antt", ".rt")):
        for line in read(path).split("\n"):
            if re.match(r"^\s*(ghost |pub )*(use|open) ", line):
                rest.update(re.findall(r" as ([a-z][A-Za-z0-9]*)\b", line))
    return words, facts, rest


def is_word(name):
    return re.match(r"^[a-z][A-Za-z0-9'!-]*$", name) is not None


def new_names():
    words, facts, rest = declared()
    fields = record_fields()
    known = {snake(w) for w in words if is_word(w)} - {"is"} | {"means"}
    new = {}
    for name in sorted(facts):
        if re.match(r"^[A-Z][A-Za-z0-9]*(-[a-z][A-Za-z0-9]*)+$", name):
            new[name] = "".join(p[0].upper() + p[1:] for p in name.split("-"))
    for name in sorted(words | rest):
        if name in facts or not is_word(name) and not re.match(r"^[a-z][A-Za-z0-9'!-]*-[A-Z]$", name):
            continue
        if not CAMEL.match(name) and "-" not in name:
            continue
        parts = [p if re.match(r"^[A-Z]$", p) else snake(p) for p in name.split("-")]
        joined = "_".join(parts)
        if name not in fields:
            for i in range(1, len(parts)):
                left, right = "_".join(parts[:i]), "_".join(parts[i:])
                if left in known and right in known:
                    joined = left + "-" + right
        if joined != name:
            new[name] = joined
    new.update(BY_HAND)
    return new


def record_fields():
    found = set()
    for path in files(".antt"):
        record = None
        for line in read(path).split("\n"):
            m = TYPE.match(line)
            if m:
                record = len(line) - len(line.lstrip())
                continue
            if record is not None and line.strip() and len(line) - len(line.lstrip()) <= record:
                record = None
            m = DECLARED.match(line)
            if record is not None and m:
                found.update(m.group(1).split())
    return found


def respell(text, new, fields, comment):
    out = []
    for line in text.split("\n"):
        at = line.find(comment)
        # a comment's start inside a string does not count
        while at >= 0 and line[:at].count('"') % 2:
            at = line.find(comment, at + 1)
        code, prose = (line, "") if at < 0 else (line[:at], line[at:])
        pieces = re.split(r'("(?:[^"\\]|\\.)*")', code)
        for k in range(0, len(pieces), 2):
            pieces[k] = turn(pieces[k], new, fields)
        prose = re.sub(r"[a-z][A-Za-z0-9]*[A-Z][A-Za-z0-9]*", lambda m: new.get(m.group(0), m.group(0)), prose)
        out.append("".join(pieces) + prose)
    return "\n".join(out)


def turn(code, new, fields):
    def one(m):
        word = m.group(0)
        if word not in new:
            return word
        before = code[: m.start()]
        # behind a dot stands a field, a member of a module or a name that Rattle made
        if before.endswith(".") and "-" in word and word not in fields:
            return word
        return new[word]

    return TOKEN.sub(one, code)


def main(argv):
    new = new_names()
    fields = record_fields()
    clash = {}
    for old, name in new.items():
        clash.setdefault(name, []).append(old)
    words, facts, rest = declared()
    everything = words | facts | rest
    for name, olds in sorted(clash.items()):
        also = [name] if name in everything and name not in new else []
        if len(olds) + len(also) > 1:
            print("falls together:", name, olds, also)
    if "--list" in argv:
        for old, name in sorted(new.items()):
            print(old, name)
        return
    for path in files((".antt", ".rt")):
        text = read(path)
        turned = respell(text, new, fields, "--" if path.endswith(".antt") else "//")
        if turned != text:
            with open(path, "w", encoding="utf-8") as f:
                f.write(turned)


if __name__ == "__main__":
    main(sys.argv[1:])
