#!/usr/bin/env python3
"""Brings the names of this repository's definitions and lemmas to the spelling of today's Rattle: words in snake case.

usage: python3 tools/spelling.py          at the top, once, after the kit's port.py

    metadataCompression -> metadata_compression, bits-split -> bits_split, Went-well -> WentWell

A name is one that a file of specs/ or proofs/ (but no proof of a function) declares: of a definition, a lemma, a field, a constructor.
It is turned wherever it stands as a whole word, in .rt, .antt and .edit files, and between backquotes in the papers.
A file that has such a word from elsewhere (std, the logic) keeps it. A lemma that would get the name of the definition that it is
about gets `_lem`. The table of what was turned is printed.
"""

import collections
import glob
import os
import re

WORD = r"[^\s(){}.;,@\"«»\[\]\\:`]+"
# Single letters with a part behind them, which made files bind.
KEPT = {"cS", "eS", "pS", "rS", "mirS", "refS", "eS-laws"}
# Names under which a file has what another declares.
ALIASES = {"takeN": "take_n", "exportedAnswer": "exported_answer"}


def read(path):
    with open(path, encoding="utf-8") as it:
        return it.read()


def of_a_function(path):
    return re.search(r"/proofs/.+/(Proof|Tie|Lts|Kinds|Statement)(/[^/]*)*\.antt$|/proofs/Lent/|/proofs/.+/Proof/", path)


def declared(text):
    """The names that the text declares, each with what it is."""
    now = None
    for line in text.split("\n"):
        if re.match(r"\S", line):
            now = None
            if line.startswith(("--", "use ", "pub use", "mod ", "pub mod", "unfolding")):
                continue
            found = re.match(r"((?:unfoldable |abbrev |pub )*)(record |data |ruleset )?(?:pub )?(" + WORD + ")", line)
            if found:
                now = (found[2] or "def").strip()
                yield found[3]
        else:
            # A field, a constructor, or what stands in a section.
            found = re.match(r"\s+(?:(?:unfoldable |abbrev |pub )+(?:record |data )?|\| )?(" + WORD + r")( [^=]*)? :( |$)", line)
            found = found or re.match(r"\s+(?:(?:unfoldable |abbrev |pub )+(?:record |data )?)(" + WORD + r")( |$)", line)
            if found:
                yield found[1]


def snake(name):
    if re.match(r"[A-Z]", name):
        return "".join(it[0].upper() + it[1:] for it in name.split("-"))
    if re.match(r"[a-z]", name):
        name = re.sub(r"([a-z0-9])([A-Z])", lambda it: it[1] + "_" + it[2].lower(), name)
    return name.replace("-", "_")


def table():
    names = collections.defaultdict(set)
    for path in glob.glob("crates/*/specs/**/*.antt", recursive=True) + glob.glob("crates/*/proofs/**/*.antt", recursive=True):
        if not of_a_function(path):
            for name in declared(read(path)):
                names[name].add(path)
    turned = dict(ALIASES)
    for name in names:
        camel = re.match(r"[a-z]", name) and re.search(r"[a-z0-9][A-Z]", name)
        if name not in KEPT and (camel or "-" in name):
            turned[name] = snake(name)
    # Names that fall together in one file: the lemma steps aside.
    also = dict(turned)
    for one in names:
        for other in names:
            if one < other and turned.get(one, one) == turned.get(other, other):
                lemma = min((one, other), key=lambda it: any("/specs/" in path for path in names[it]))
                definition = other if lemma == one else one
                uses = lambda it, path: re.search(r"(?<![^\s(){}.;,])" + re.escape(it) + r"(?![^\s(){}.;,])", read(path))
                in_proofs = not any("/specs/" in path for path in names[lemma])
                if in_proofs and any(uses(definition, path) for path in names[lemma]):
                    if lemma == "byNumber":
                        lemma, definition = definition, lemma
                    also[lemma] = turned.get(lemma, lemma) + "_lem"
    return also


def elsewhere(text):
    """The words that the text has from libraries that are not this repository's."""
    ours = set(os.listdir("crates"))
    out = set()
    for module, items in re.findall(r"(?m)^(?:pub |ghost )?use ([^\s{]+?)\.\{([^}]*)\}", text):
        parts = module.split(".")
        if not (parts[0] == "Rattle" and len(parts) > 1 and parts[1] in ours):
            out |= {it.split(" as ")[-1].strip() for it in items.split(",")} | {it.split(" as ")[0].strip() for it in items.split(",")}
    return out


def main():
    turned = table()
    files = [it for end in ("rt", "antt", "edit") for it in glob.glob(f"crates/**/*.{end}", recursive=True)]
    for path in files:
        text = read(path)
        kept = elsewhere(text) if path.endswith("antt") else set()
        # In sources the words of clauses alone have these forms.
        new = re.sub(WORD, lambda it: turned[it[0]] if it[0] in turned and it[0] not in kept else it[0], text)
        if new != text:
            with open(path, "w", encoding="utf-8") as it:
                it.write(new)
    for path in ["README.md", *glob.glob("docs/*.md")]:
        text = read(path)
        new = re.sub(r"`([^`\n]+)`", lambda it: "`" + re.sub(WORD, lambda w: turned.get(w[0], w[0]) if w[0] not in ("scene-fields", "scene-show") else w[0], it[1]) + "`", text)
        if new != text:
            with open(path, "w", encoding="utf-8") as it:
                it.write(new)
    for old in sorted(turned):
        print(old, turned[old])


if __name__ == "__main__":
    main()
