#!/usr/bin/env python3
"""Brings the repository's own definitions and lemmas to today's spelling: words in snake case, types in camel case, constants as the code spells them.

usage: python3 tools/respell.py        once, at the top, after the toolchain's own script

A name is turned wherever it stands: in specs/, proofs/, clauses, comments, must-fail edits, and between backquotes in the documents (notes of landings
speak of their time and stay). What a function's own proof file declares for itself stays, and so does what the toolchain generates.
"""

import collections
import glob
import os
import re

# Names that would fall together with another one: a lemma takes _lem, a part of a record or of a choice a word of its own.
APART = {
    "answer-form": "answer_form_lem",
    "area-after": "area_told",
    "entry-bytes": "entry_bytes_lem",
    "image-after": "image_told",
    "in-force": "in_force_lem",
    "is-reached": "is_reached_lem",
    "last_line": "last_line_lem",
    "length-field": "length_field_at",
    "length-stands": "length_stands_lem",
    "limit-field": "limit_field_at",
    "listed_below": "listed_below_lem",
    "no-ask": "no_ask_lem",
    "no-entry": "no_entry_lem",
    "no-offset": "no_offset_field",
    "of-columns": "of_columns_lem",
    "offset-field": "offset_field_at",
    "offset-stands": "offset_stands_lem",
    "over-at": "over_at_lem",
    "owner-is": "owner_is_lem",
    "owners-field": "owners_field_at",
    "owners-stand": "owners_stand_lem",
    "row-at": "row_at_lem",
    "shortfall-after": "shortfall_after_lem",
    "slices-after": "slices_after_lem",
    "slot-field": "slot_field_at",
    "start-at": "start_at_lem",
    "start-in-range": "start_in_range_lem",
    "start-of": "start_of_lem",
    "unused-test": "unused_test_lem",
}

EDGE = r"""\s(){}\[\].,;"`|"""
TOKEN = re.compile(rf"(?P<before>\.?)(?P<name>[^{EDGE}]+)")
NAME = r"[^\s(){}\[\].,;:\"`|→λ]+"
DECLARED = re.compile(
    rf"\s*(?:(?:unfoldable|abbrev) )?(?:pub )?(?:data |record )?({NAME}(?: {NAME})*)\s+(?:\([^)]*\)\s*|\{{[^}}]*\}}\s*)*:(?: |$)"
)
INNER = re.compile(r"crates/\w+/proofs/.+/(Proof|Answers|Given)\.antt$")


def spelled(name):
    if name in APART:
        return APART[name]
    if name.upper() == name and re.search("[A-Z]{2}|^[A-Z]+-", name):
        return name.replace("-", "_")
    if name[0].isupper():
        return name
    return re.sub(r"(?<=[a-z0-9])([A-Z])", lambda m: "_" + m.group(1).lower(), name).replace("-", "_")


def declared(path):
    """The names that a file declares, and those of them that are parts of a record or of a choice."""
    names, parts, inside = set(), set(), None
    with open(path, encoding="utf-8") as f:
        for line in f:
            if not line.strip() or line.lstrip().startswith("--"):
                continue
            depth = len(line) - len(line.lstrip())
            if inside is not None and depth <= inside:
                inside = None
            found = DECLARED.match(line)
            if found:
                here = [n for n in found.group(1).split() if n not in ("use", "mod", "let", "elim")]
                names.update(here)
                if inside is not None:
                    parts.update(here)
            if re.match(r"\s*(?:abbrev )?(?:pub )?(?:record|data) ", line):
                inside = depth
    return names, parts


def main():
    files = sorted(glob.glob("crates/*/specs/**/*.antt", recursive=True) + glob.glob("crates/*/proofs/**/*.antt", recursive=True))
    outer, parts = set(), set()
    for path in files:
        if not INNER.match(path):
            names, some = declared(path)
            outer |= names
            parts |= some
    turn = {n: spelled(n) for n in outer if spelled(n) != n}
    fall = collections.defaultdict(set)
    for n in outer:
        fall[turn.get(n, n)].add(n)
    for new, old in sorted(fall.items()):
        if len(old) > 1:
            print("fall together:", new, sorted(old))

    def turned(text, own=frozenset(), dotted=None):
        def one(m):
            name = m.group("name")
            if name not in turn or name in own or (m.group("before") and dotted is not None and name not in dotted):
                return m.group(0)
            return m.group("before") + turn[name]

        return TOKEN.sub(one, text)

    there = {turn.get(n, n) for n in outer}

    def told(m):
        # A document may speak of a name that the toolchain's own script has turned already.
        name = m.group("name")
        if name not in outer and spelled(name) in there:
            return m.group("before") + spelled(name)
        return m.group(0)

    def quoted(text):
        return re.sub(r"`[^`\n]+`", lambda m: TOKEN.sub(told, turned(m.group(0))), text)

    def comment(text):
        text = quoted(text)
        text = re.sub(r"(Helpers? of |mirrors )(\S+?)(?=[:,. ])", lambda m: m.group(1) + turn.get(m.group(2), m.group(2)), text)
        return TOKEN.sub(lambda m: m.group("before") + turn[m.group("name")] if m.group("name") in turn and re.search("[a-z][A-Z]|[A-Z]-[A-Z]", m.group("name")) else m.group(0), text)

    def code(text, mark, **more):
        out = []
        for line in text.split("\n"):
            at = line.find(mark)
            if at < 0:
                out.append(turned(line, **more))
            else:
                out.append(turned(line[:at], **more) + comment(line[at:]))
        return "\n".join(out)

    def change(path, work):
        with open(path, encoding="utf-8") as f:
            old = f.read()
        new = work(old)
        if new != old:
            with open(path, "w", encoding="utf-8") as f:
                f.write(new)

    for path in files:
        inner = INNER.match(path)
        own = frozenset(declared(path)[0]) if inner else frozenset()
        change(path, lambda t: code(t, "--", own=own, dotted=parts if inner else None))
    for path in sorted(glob.glob("crates/*/src/**/*.rt", recursive=True)):
        change(path, lambda t: code(t, "//"))
    for path in sorted(glob.glob("crates/*/must-fail/*.edit")):
        change(path, lambda t: "\n".join(turned(x) if x.startswith(("old: ", "new: ")) else comment(x) for x in t.split("\n")))
    for path in sorted(glob.glob("*.md") + glob.glob("docs/*.md") + glob.glob("second/*.md") + glob.glob("bench/*.md")):
        change(path, quoted)


main()
