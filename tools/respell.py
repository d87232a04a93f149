#!/usr/bin/env python3
"""Spells the repository's own definitions and lemmas as today's Rattle does: words in snake case.

usage: respell.py [FOLDER]

Run once, after the language's own script, at the top of the repository (or with its FOLDER). Names that specs/ and proofs/ declare
in lower camel case get underscores, wherever they stand: definitions, lemmas, clauses, wrong programs, documents. Names of Rust
items, of exported functions, strings, inputs and outputs stay. A lemma that would then have its definition's name gets `_lem`.
"""
import collections
import glob
import os
import re
import sys

DECLARED = re.compile(
    r"(?m)^(\s*)(?:abbrev |pub |unfoldable |open )*(?:(?:record|data) )?(?:pub )?([^\s:(){},;]+)(?:(?: \([^)]*\)| \{[^}]*\})*) :(?= |$)"
)
NAME = re.compile(r"[^\s(){};,@\"«»λ.:`'|<>/]+")

# Lemmas that stand beside the definition whose name they would share, by the file that declares them.
LEMMAS = {
    "crates/aes/proofs/KeyedLaws.antt": ["in_place"],
    "crates/demands/proofs/DatagramDemands.antt": ["of_reader", "read_out"],
    "crates/demands/proofs/OrderLaws.antt": ["other_key"],
    "crates/demands/proofs/Orders.antt": ["open_order"],
    "crates/ghash/proofs/DoubledLaws.antt": ["key_in"],
    "crates/plan_demands/proofs/ReceivedLaws.antt": ["header_of"],
    "crates/session_book/proofs/Window.antt": ["one_more"],
    "crates/sip004_demands/proofs/DatagramOrders.antt": ["open_order", "other_key"],
}


def snake(name):
    parts = []
    for part in name.split("-"):
        if part and not part[0].isupper():
            part = part.replace("getD", "get_or")
            part = re.sub(r"(?<=[a-z0-9])(?=[A-Z])", "_", part).lower()
        parts.append(part)
    return "-".join(parts)


def read(path):
    with open(path, encoding="utf-8") as f:
        return f.read()


def write(path, text):
    with open(path, "w", encoding="utf-8") as f:
        f.write(text)


def rename_lemma(files, texts, path, name):
    """name becomes name_lem in the file that declares it and in those that import it from there."""
    crate, module = re.fullmatch(r"crates/(\w+)/proofs/(.*)\.antt", path).groups()
    place = f"Rattle.{crate}.proofs.{module.replace('/', '.')}."
    word = re.compile(rf"(?<![^\s(){{}};,@\"«»λ]){re.escape(name)}(?![^\s(){{}};,@\"«».])")
    for f in files:
        imports = re.search(re.escape(place) + r"\{[^}]*(?<![^\s{,])" + re.escape(name) + r"(?![^\s},])", texts[f])
        if f == path or imports:
            texts[f] = word.sub(name + "_lem", texts[f])


def rename_crate(old, new):
    """A crate whose name a library of the kit has."""
    if not os.path.isdir(f"crates/{old}"):
        return
    os.rename(f"crates/{old}", f"crates/{new}")
    for f in ["crates.txt"] + glob.glob("crates/**/*.rt", recursive=True) + glob.glob("crates/**/*.antt", recursive=True):
        text = read(f)
        if f == "crates.txt":
            turned = re.sub(rf"\b{old}\b(?!\.)", new, text)
        else:
            turned = re.sub(rf"\bRattle\.{old}\.", f"Rattle.{new}.", text)
            if f.endswith(".rt"):
                turned = re.sub(rf"(?<![\w.:]){old}::", f"{new}::", turned)
        if turned != text:
            write(f, turned)


def main(root):
    os.chdir(root)
    rename_crate("sha1", "sha1_hash")
    own = sorted(glob.glob("crates/*/specs/*.antt") + glob.glob("crates/*/proofs/**/*.antt", recursive=True))
    source = sorted(glob.glob("crates/*/src/**/*.rt", recursive=True))
    edits = sorted(glob.glob("crates/*/must-fail/*.edit") + glob.glob("tests/mistakes/*.edit"))
    documents = sorted(glob.glob("*.md") + glob.glob("docs/*.md") + glob.glob("docs/notes/*.md"))
    texts = {f: read(f) for f in own + source + edits + documents}
    before = dict(texts)

    declared = collections.defaultdict(set)
    for f in own:
        for m in DECLARED.finditer(texts[f]):
            declared[m.group(2)].add(f)
    # Names that an import gives, and what a lemma or a clause binds.
    for f in own + source:
        for n in NAME.findall(re.sub(r"(?m)(--|//).*$", "", texts[f])):
            declared[n].add(f)
    turned = {n: snake(n) for n in declared if re.search(r"^[a-z].*[a-z0-9][A-Z]", n) or re.search(r"^[a-z][A-Z]", n)}
    met = collections.Counter(turned.values())
    for old, new in turned.items():
        if met[new] > 1:
            sys.exit(f"respell: {old} meets another at {new}")

    for path, names in LEMMAS.items():
        for name in names:
            rename_lemma(own, texts, path, name)
    for f in own + source + edits:
        texts[f] = NAME.sub(lambda m: turned.get(m.group(0), m.group(0)), texts[f])
    # In a document a name stands between backquotes.
    for f in documents:
        texts[f] = re.sub(
            r"`[^`\n]*`", lambda m: NAME.sub(lambda n: turned.get(n.group(0), n.group(0)), m.group(0)), texts[f]
        )
    changed = [f for f in texts if texts[f] != before[f]]
    for f in changed:
        write(f, texts[f])
    print(f"{len(turned)} names in {len(changed)} files")


if __name__ == "__main__":
    main(sys.argv[1] if len(sys.argv) > 1 else ".")
