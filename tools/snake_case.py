#!/usr/bin/env python3
"""Brings the repository's own definitions, lemmas and fields to the library's spelling.

usage: python3 tools/snake_case.py [--list]     at the top; --list prints the old and new names and changes nothing

Functions, lemmas, fields and constructors in snake case, types and facts in camel case; a dash stays where it joins two names, as in
`length-put`. Run once, after the kit's own script for older repositories. In .rt files only clauses and `ghost use` lines change.
"""

import glob
import os
import re
import sys

WORD = re.compile(r"[^\s(){}\[\],;.:\"`«»]+")
SIGNATURE = re.compile(r"^\s*(?:abbrev |unfoldable )?(?:pub )?(?:abbrev |unfoldable )?([^\s:(){}.]+) :")
FIELD = re.compile(r"^\s+(?:pub )([^\s:(){}.]+) :")
# Words of the library that a lemma's name may join by a dash to another.
LIBRARY = set("length set take drop append map get_or paste sum min max reverse flatten fold cons nil put add sub mul snoc zero suc cond bits".split())
# Names that would fall together with another, or read badly, by hand.
BY_HAND = {
    "at-end": "at_end_lem",
    "augmentation-at": "augmentation_at_lem",
    "empty-part": "empty_part_lem",
    "ends-in": "ends_in_lem",
    "found_as": "found_as_lem",
    "is-in": "is_in_lem",
    "item-named": "item_named_lem",
    "kind-of": "kind_of_lem",
    "known-framing": "known_framing_lem",
    "line-room": "line_room_lem",
    "number-in": "number_in_lem",
    "numbers_of": "numbers_of_lem",
    "octets-in": "octets_in_kind",
    "octets-of": "octets_of_lem",
    "one-item": "one_item_lem",
    "rates-text": "rates_item",
    "tcmax-length": "tcmax_length_lem",
    "too_long": "too_long_lem",
    "two_items": "two_items_lem",
    "with-row": "with_row_lem",
    "without-last": "without_last_lem",
}


def definition_files():
    return sorted(glob.glob("crates/*/specs/*.antt") + glob.glob("crates/*/proofs/*.antt"))


def spelled(name, words):
    if name[0].isupper():
        return name
    if name in BY_HAND:
        return BY_HAND[name]
    if re.search(r"[a-z0-9][A-Z]", name):
        name = re.sub(r"(?<=[a-z0-9])(?=[A-Z])", "_", name)
        name = "".join(c.lower() if c.isascii() else c for c in name)
        name = re.sub(r"(?<=[a-z])(?=\d\d)", "_", name)
    parts = name.split("-")
    if len(parts) == 1:
        return name
    out = parts[0]
    for before, after in zip(parts, parts[1:]):
        both = before.rstrip("'") in words and after.rstrip("'") in words
        out += ("-" if both else "_") + after
    return out


def own_names():
    names, fields, functions = set(), set(), set()
    for path in definition_files():
        with open(path, encoding="utf-8") as f:
            for line in f:
                found = SIGNATURE.match(line)
                if found:
                    names.add(found.group(1))
                    if FIELD.match(line) or not line.startswith((" ", "\t")):
                        fields.add(found.group(1))
                    if "/specs/" in path and re.match(r"(abbrev|unfoldable) pub ", line):
                        functions.add(found.group(1))
    return names, fields, functions


def mapping():
    names, fields, functions = own_names()
    plain = {spelled(n, set()) for n in functions}
    words = LIBRARY | functions | plain
    turned = {n: spelled(n, words) for n in names}
    return {n: t for n, t in turned.items() if n != t}, fields, names


def foreign(text):
    """The names that a file takes from a library."""
    out = set()
    for found in re.finditer(r"use ([\w.'·ℕℤ]+)\.\{([^}]*)\}", text):
        root = found.group(1)
        own = root.startswith("Rattle.") and os.path.isdir("crates/" + root.split(".")[1])
        if own and ".declared." not in root and not re.search(r"\.(Statement|Tie|Given|Goals)$", root):
            continue
        out |= {w.strip() for item in found.group(2).split(",") for w in item.split(" as ")}
    return out


def turned_line(line, turn, skip, fields):
    def one(found):
        word = found.group(0)
        if word not in turn or word in skip:
            return word
        before = line[: found.start()]
        if before.endswith(".") and not before.endswith((" .", "(.")):
            root = re.search(r"([^\s(){}\[\],;:]+)\.$", before)
            if root and root.group(1).split(".")[0] in ("tie", "goal"):
                return word
            if word not in fields:
                return word
        return turn[word]

    return WORD.sub(one, line)


def comment_turned(text, turn):
    def one(found):
        word = found.group(0)
        return turn[word] if word in turn and re.search(r"[a-z0-9][A-Z]", word) else word

    text = WORD.sub(one, text)
    return re.sub(r"`([^`]*)`", lambda q: "`" + WORD.sub(lambda w: turn.get(w.group(0), w.group(0)), q.group(1)) + "`", text)


def antt(path, turn, fields):
    with open(path, encoding="utf-8") as f:
        text = f.read()
    skip = foreign(text)
    if re.search(r"/proofs/.+/[^/]*\.antt$", path):
        skip = skip | {m.group(1) for m in map(SIGNATURE.match, text.split("\n")) if m}
    lines = []
    for line in text.split("\n"):
        code, mark, comment = line.partition("-- ")
        if mark and (not code.strip() or code.endswith(" ")):
            lines.append(turned_line(code, turn, skip, fields) + mark + comment_turned(comment, {k: v for k, v in turn.items() if k not in skip}))
        else:
            lines.append(turned_line(line, turn, skip, fields))
    return text, "\n".join(lines)


def rt(path, turn, fields):
    with open(path, encoding="utf-8") as f:
        text = f.read()
    skip = foreign(text.replace("ghost use", "use"))
    lines, depth, inside = [], 0, False
    for line in text.split("\n"):
        clause = re.match(r"^\s*(requires|ensures|ghost)\b", line)
        if inside or clause:
            lines.append(turned_line(line, turn, skip, fields))
            depth += line.count("{") - line.count("}")
            inside = depth > 0
            if not inside:
                depth = 0
        else:
            lines.append(line)
    return text, "\n".join(lines)


def main():
    turn, fields, names = mapping()
    by_new = {}
    for old, new in turn.items():
        by_new.setdefault(new, set()).add(old)
    for n in names:
        if n in by_new:
            by_new[n].add(n)
    if "--list" in sys.argv:
        for old in sorted(turn):
            print(old, turn[old])
        for new, olds in sorted(by_new.items()):
            if len(olds) > 1:
                print("together:", new, *sorted(olds))
        return
    paths = [p for p in glob.glob("crates/*/*/**/*.antt", recursive=True) if "/out/" not in p]
    for path in sorted(paths) + sorted(glob.glob("crates/*/src/**/*.rt", recursive=True)):
        old, new = (antt if path.endswith(".antt") else rt)(path, turn, fields)
        if old != new:
            with open(path, "w", encoding="utf-8") as f:
                f.write(new)


if __name__ == "__main__":
    main()
