#!/usr/bin/env python3
"""Brings the repository's own definitions, lemmas and fields from camelCase to snake_case, as the library spells its words.

usage: tools/respell.py [--say]      at the top, once, after the kit's own port.py; --say only lists the names and what falls together

A name is renamed where a file of specs/ or proofs/ declares it (a definition, a lemma, a field of a record) and it begins
with a small letter and has a capital after it. Functions of src/, strings, inputs and the names that the checker makes keep
their spelling. Names of facts (a result in Type) that begin with a small letter get a capital.
"""
import collections
import glob
import re
import sys

WORD = r"[A-Za-z_][A-Za-z0-9_']*"
TOKEN = re.compile(r"(?<![A-Za-z0-9_'])" + WORD)
HEAD = re.compile(r"^ *(?:abbrev |unfoldable |pub )*(" + r"[A-Za-z][^\s:(){},.]*" + r") :", re.M)
FIELD = re.compile(r"^\s+(?:pub )?(" + r"[a-z][^\s:(){},.]*" + r") :", re.M)
# Lemmas that would have their definition's name: the ending that the library gives such a lemma.
LEMMAS = {
    "pause_laws/proofs/Forms.antt": "after_look field_step in_field on_step table_step",
    "refusal_laws/proofs/Forms.antt": "after_look field_step in_field on_step table_step",
    "report_index/proofs/Match.antt": "all_among",
    "report_laws/proofs/Back.antt": "inputs_in",
    "report_laws/proofs/Carried.antt": "no_line",
    "form_laws/proofs/Chunks.antt": "no_place",
    "form/proofs/room/Decides.antt": "room_by",
    "layout/proofs/Read.antt": "chunk_read",
    "index/proofs/access/chunk_at/Proof.antt": "chunk_read",
    "consistent/proofs/Records.antt": "record_of",
    "consistent/proofs/Theorem.antt": "record_of",
    "row_join/proofs/joining/Left.antt": "leaves_kept",
    "row_join/proofs/leave_by/Proof.antt": "leaves_kept",
}


def snake(word):
    word = re.sub(r"([a-z0-9])([A-Z])", r"\1_\2", word)
    word = re.sub(r"([A-Z]+)([A-Z][a-z])", r"\1_\2", word)
    return word.lower()


def camel(word):
    return re.match(r"[a-z]", word) and re.search(r"[A-Z]", word)


def files():
    for pattern in ("crates/*/specs/**/*.antt", "crates/*/proofs/**/*.antt", "crates/*/src/**/*.rt"):
        yield from sorted(glob.glob(pattern, recursive=True))


def declared(texts):
    """The parts, between dashes, of each name that is declared and is in camelCase."""
    found = set()
    facts = set()
    for path, text in texts.items():
        if not path.endswith(".antt"):
            continue
        for m in list(HEAD.finditer(text)) + list(FIELD.finditer(text)):
            for part in m.group(1).split("-"):
                if camel(part) and re.fullmatch(WORD, part):
                    found.add(part)
        for m in re.finditer(r" as (" + WORD + r")[,}]", text):
            if camel(m.group(1)):
                found.add(m.group(1))
        for m in re.finditer(r"^(?:abbrev |unfoldable |pub )*([a-z][A-Za-z0-9_']*) : (.*(?:\n  +.*)*)", text, re.M):
            if re.search(r"Type \d+\s*$", m.group(2)):
                facts.add(m.group(1))
    return found, facts


def main():
    say = "--say" in sys.argv
    texts = {p: open(p, encoding="utf-8").read() for p in files()}
    found, facts = declared(texts)
    rename = {n: snake(n) for n in found}
    taken = collections.defaultdict(list)
    for n, s in rename.items():
        taken[s].append(n)
    for s, ns in taken.items():
        if len(ns) > 1:
            print("two become one:", s, ns)
    if say:
        print(len(rename), "names;", "facts with a small letter:", sorted(facts))
        for p, t in texts.items():
            words = set(TOKEN.findall(re.sub(r"--[^\n]*|//[^\n]*", "", t)))
            for n in sorted(words & set(rename)):
                if rename[n] in words:
                    print("falls together:", p, n, rename[n])
        return
    for p, words in LEMMAS.items():
        p = "crates/" + p
        # (unfinished crates stand only above the last landing)
        for w in words.split() if p in texts else []:
            texts[p] = re.sub(r"(?<![A-Za-z0-9_'.-])" + w + r"(?![A-Za-z0-9_'.-])", w + "_lem", texts[p])
    for p, t in texts.items():
        new = TOKEN.sub(lambda m: rename.get(m.group(0), m.group(0)), t)
        if new != open(p, encoding="utf-8").read():
            open(p, "w", encoding="utf-8").write(new)


if __name__ == "__main__":
    main()
