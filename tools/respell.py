#!/usr/bin/env python3
"""Brings the names that specs/ and proofs/ declare to snake case, as `ruleNumber` to `rule_number`.

usage: tools/respell.py [FOLDER]     the repository, if not this one; run once, after the kit's port.py

Types and modules keep their capitals, lemmas their dashes, and what src/ declares its names. Where a new name would meet another in the same file,
TAKEN says what that other one is called instead.
"""

import pathlib
import re
import sys

WORD = re.compile(r"[^\s(){}.;,@\"«»`|]+")
CAMEL = re.compile(r"[a-z](?:[\w'₀-₉-]*[a-z0-9])?[A-Z][\w'₀-₉-]*")

# A name and the one in its place, and the files where it is so; not behind or before a dot, unless the row says "fields".
TAKEN = [
    ("type_id", "type_number", ["writer_rules/proofs/FieldLaws.antt"]),
    ("key_below", "key_below_lem", ["wire/proofs/Bytes.antt", "wire/specs/code/Order.antt", "compare/proofs/Keys.antt", "compare/specs/code/Order.antt",
        "element/proofs/Reading.antt", "element/proofs/Good.antt"]),
    ("no_room", "no_room_lem", ["writer_buffer/proofs/Stores.antt", "writer_buffer/proofs/Ending.antt", "writer_buffer/proofs/room_for/Proof.antt"]),
    ("no_room", "room_missing", ["writer_theorems/proofs/Finishing.antt"]),
    ("no_room", "without_room", ["claims/proofs/Occurring.antt"]),
    ("head_bytes", "head_bytes_lem", ["writer_theorems/proofs/Trip.antt"]),
    ("order_from", "order_from_lem", ["compare/proofs/Ordering.antt", "compare/proofs/order_bytes/Proof.antt"]),
    ("string_bytes", "string_bytes_lem", ["element/proofs/Writing.antt", "transaction/proofs/Writing.antt"]),
    ("too_long", "above_most", ["transaction/specs/FirstBroken.antt", "transaction/proofs/FirstBroken.antt", "claims/proofs/Occurring.antt"], "fields"),
    ("cut_short", "cut_throughout", ["transaction/specs/FirstBroken.antt", "transaction/proofs/FirstBroken.antt"], "fields"),
    ("out_of_order", "not_above", ["owners/proofs/Reading.antt", "owners/proofs/addresses_from/Proof.antt"], "fields"),
]


def snake(word):
    word = word.replace("getD-", "get_or-")
    if not CAMEL.fullmatch(word):
        return word
    return re.sub(r"(?<=[A-Za-z0-9])[A-Z]", lambda m: "_" + m[0].lower(), word)


def respelled(text):
    return WORD.sub(lambda m: snake(m[0]), text)


def main():
    root = pathlib.Path(sys.argv[1] if len(sys.argv) > 1 else pathlib.Path(__file__).resolve().parent.parent)
    for old, new, files, *fields in TAKEN:
        ends = r"(?![\w.'-])" if not fields else r"(?![\w'-])"
        starts = r"(?<![\w.'-])" if not fields else r"(?<![\w'-])"
        for name in files:
            path = root / "crates" / name
            if path.exists():
                text = path.read_text(encoding="utf-8")
                path.write_text(re.sub(starts + old + ends, new, text), encoding="utf-8")
    paths = [p for kind in ("*.antt", "*.rt", "*.edit") for p in (root / "crates").rglob(kind) if "out" not in p.parts]
    for path in sorted(paths):
        text = path.read_text(encoding="utf-8")
        turned = respelled(text)
        if turned != text:
            path.write_text(turned, encoding="utf-8")


main()
