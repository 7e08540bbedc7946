#!/usr/bin/env python3
"""Brings this repository's definitions, lemmas and fields to the spelling of today's Rattle: words in snake case.

usage: tools/snake_names.py        at the top of the repository, once, after port.py

Types, modules and functions of src/ keep their names. A name of a library that a file imports stays as the library has it.
It stops, and writes nothing, where two names would fall together; SPELLED says how each such pair was told apart.
"""

import collections
import glob
import re
import sys

# A word of antt: what stands between blanks, brackets and dots.
WORD = re.compile(r"[^\s(){}\[\].,;:\"⌜⌝«»|@]+")
USE = re.compile(r"^\s*(?:pub )?use ([\w.'-]+?)(?:\.\{([^}]*)\})?(?: as \S+)?$", re.M)
COMMENT = re.compile(r"--.*")

# Lemmas and fields that would fall together with a definition of the other spelling, which takes the plain name.
SPELLED = {
    "list-most": "list_at_most",
    "version-most": "version_at_most",
    "store-most": "store_at_most",
    "index-most": "index_at_most",
    "well-formed": "is_well_formed",
    "pass-answer": "pass_answered",
    "decided-answer": "answer_decided",
    "decided-areas": "areas_decided",
    "price-fits": "price_in_limits",
    "of-store": "of_its_store",
    "list-fits": "list_in_limits",
    "lengths-fit": "lengths_in_limits",
    "as-chunk": "ruled_as_chunk",
    "written-version": "version_written",
    "open-size": "open_size_most",
    "to-come": "still_to_come",
    "state-of": "state_alike",
    "pair-at": "pair_at_price",
    "list-of": "list_out_is",
    "So-far": "SoFar",
    "True-of": "TrueOf",
}
# Names in snake case already, in these files alone.
SPELLED_IN = [
    ("crates/choice/proofs/Lists.antt", {"bit_byte": "bit_byte_read"}),
    ("crates/demand/proofs/*.antt", {"list_written": "list_is_written", "block_written": "block_is_written"}),
    ("crates/join/proofs/*.antt", {"goes_on": "goes_on_so"}),
    ("crates/choice/proofs/*.antt", {"goes_on": "goes_on_so"}),
    ("crates/linear/proofs/*.antt", {"goes_on": "goes_on_so"}),
]


def snake(word):
    word = re.sub(r"(?<=[a-z0-9])[A-Z]", lambda m: "_" + m[0].lower(), word)
    return word.replace("-", "_")


def read(path):
    with open(path, encoding="utf-8") as f:
        return f.read()


def own(path, crates):
    return path.startswith("Rattle.") and path.split(".")[1] in crates


def names(crates):
    """The names to respell: the words of specs/ and of the lemma files that no library gives."""
    library, words = set(), set()
    lemmas = glob.glob("crates/*/specs/*.antt") + glob.glob("crates/*/proofs/*.antt")
    for path in lemmas + glob.glob("crates/*/proofs/*/*.antt"):
        text = COMMENT.sub("", read(path))
        for use in USE.finditer(text):
            if not own(use[1], crates):
                library |= {it.strip().split(" as ")[0] for it in (use[2] or "").split(",")}
        if path in lemmas:
            words |= set(WORD.findall(USE.sub("", text)))
    turned = {it: snake(it) for it in words - library if re.match("[a-z]", it) and snake(it) != it}
    turned |= {it: to for it, to in SPELLED.items() if it in words}
    met = collections.Counter(turned.values())
    in_some = {old for _, table in SPELLED_IN for old in table}
    clash = [it for it, to in turned.items() if met[to] > 1 or to in words and to not in in_some]
    if clash:
        sys.exit("these names fall together: " + ", ".join(sorted(clash)))
    return turned


def respell(text, table):
    return WORD.sub(lambda m: table.get(m[0], m[0]), text)


def quoted(text, table):
    """A page or a comment: the names stand between backquotes."""
    return re.sub(r"`([^`\n]+)`", lambda m: "`" + respell(m[1], table) + "`", text)


def turn_proof(text, table):
    lines = []
    for line in text.split("\n"):
        code, dash, note = line.partition("--")
        lines.append(respell(code, table) + dash + quoted(note, table))
    return "\n".join(lines)


def turn_source(text, table):
    lines = []
    for line in text.split("\n"):
        code, slash, note = line.partition("//")
        pieces = re.split(r'("(?:[^"\\]|\\.)*")', code)
        pieces[::2] = [re.sub(r"(?<![\w.-])[a-z][\w'-]*|(?<=\.)[a-z]\w*[A-Z]\w*", lambda m: table.get(m[0], m[0]), it) for it in pieces[::2]]
        lines.append("".join(pieces) + slash + quoted(note, table))
    return "\n".join(lines)


def write(path, text):
    if text != read(path):
        with open(path, "w", encoding="utf-8") as f:
            f.write(text)


def main():
    crates = {it.split("/")[1] for it in glob.glob("crates/*/src")}
    table = names(crates)
    for path in sorted(glob.glob("crates/*/specs/*.antt") + glob.glob("crates/*/proofs/**/*.antt", recursive=True)):
        here = dict(table)
        for where, more in SPELLED_IN:
            if path in glob.glob(where):
                here |= more
        write(path, turn_proof(read(path), here))
    for path in sorted(glob.glob("crates/*/src/*.rt")):
        write(path, turn_source(read(path), table))
    for path in ["README.md", "CONTRIBUTING.md", *sorted(glob.glob("docs/**/*.md", recursive=True))]:
        write(path, quoted(read(path), table))
    print(f"{len(table)} names")


main()
