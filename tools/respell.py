#!/usr/bin/env python3
"""Brings the repository's own names to one spelling: words in snake case, types and modules in camel case.

Run once at the top, after the kit's port.py. A definition, field or constructor is one word in snake case; a lemma keeps the
dashes that join the names in it, and each of those is in snake case. Names from src/ and from the kit's library stay.
"""
import glob
import re
import sys

HEAD = re.compile(r"^(?:(?:abbrev|unfoldable|pub|record|data) )*([^\s:(){}.]+)\s*(?:[({][^:]*)?(?::|$| where)")
FIELD = re.compile(r"^ +(?:pub )?([^\s:(){}.]+) :")
TOKEN = re.compile(r"[\w'◌₀-₉-]+")

# Lemmas whose dashes the kit's script took for its own names' dashes, as they were before it.
LEMMAS = """
T-true add-a add-at add-done add-most add-total address-is after-frame alike-refl all-append all-head all-more
all-none all-plain all-same all-split all-take at-one at-ready below-next below-or below-suc between-start
bit-below bit-not block-room both-first both-is both-true bounded-of by-cases byte-at bytes-fit choose-no
choose-yes chosen-is clear-filled count-kept count-none count-same cut-all decimal-step digits-append
digits-mod digits-value div-mono down-by down-fits down-is end-is end-kept entry-kept first-below first-found
first-holds first-part found-first found-name found-within frag-of fresh-in from-start getD-part getD-sets
given-inside given-out gone-same held-whole in-image in-one in-table index-same is-false is-true kept-by
kept-map kept-put kept-refl kept-store kept-trans last-arm length-cut length-digits length-most length-part
length-whole list-all listed-more listed-same listed-start lists-agree low-below low-bits made-at map-same
move-at moved-sum mul-at narrow-at never-both no-answer no-length no-text none-found not-first not-so
number-in number-is number-same on-list one-below one-bit one-byte one-map one-more ones-bit ones-in or-right
other-name pair-made pairs-made part-at part-bytes passed-none place-at place-in place-same pow-pos put-byte
put-one rank-is read-out read-past rest-in root-in run-length run-more run-moved run-none run-room run-small
same-bit same-byte same-count same-length same-place same-sign same-test second-none seek-found size-is
size-less size-same small-all small-signed some-bytes spot-is square-le sum-more sum-same taken-is taken-not
taken-yes three-made two-is under-same up-fits up-is whole-is whole-multiple write-keeps written-same
wrote-one zero-in zero-test
""".split()

# Fields that would have a definition's name.
FIELDS = {
    "free-at": "free_from",
    "good-size": "size_good",
    "in-block": "within_block",
    "of-group": "group_is",
    "size-then": "size_as_set",
    "total-blocks": "blocks_total",
    "used-at": "used_from",
}

# Words inside names that are declared in a section of a file: each is in snake case wherever a proof or a page has it.
WITHIN = """
applyAll applyIf bitAt bufAt byteAt fieldAt getD inRecord inodeAt inodeOut itsOk leftAhead leftBehind metBy putBitsAt putCount putField
putNum putTotal
""".split()


def within(name):
    parts = ["get_or" if p == "getD" else snake(p) if p in WITHIN else p for p in name.split("-")]
    return "-".join(parts)


def snake(word):
    """fooBar -> foo_bar; a word in capitals or with a capital in front stays."""
    if not word or word[0].isupper() or word[0] == "◌":
        return word
    return re.sub(r"(?<=[a-z0-9])([A-Z]+)(?=[a-z]|$)", lambda m: "_" + m.group(1).lower(), word)


def lemma(name, known):
    """A dash stays between two names; a plain word is added with `_`."""
    parts = [re.sub(r"^get_?[dD]$", "get_or", snake(p)) for p in name.split("-")]
    new = parts[0]
    for before, after in zip(parts, parts[1:]):
        new += ("-" if before in known and after in known else "_") + after
    return new


def definition(name):
    return "_".join(snake(p) for p in name.split("-"))


def files(*patterns):
    return sorted({f for p in patterns for f in glob.glob(p, recursive=True) if "/out/" not in f})


def declared():
    """name -> whether it is a definition (else a lemma)."""
    names = {}
    for f in files("crates/*/specs/*.antt", "crates/*/proofs/*.antt"):
        spec, inside = "/specs/" in f, False
        for line in open(f, encoding="utf-8"):
            if line.startswith(("--", "use ", "unfolding", "mod ", "pub mod", "pub use", "open ")):
                continue
            if re.match(r"^(?:pub )?(?:record|data) ", line):
                inside = True
                continue
            if line[:1] not in (" ", "\n"):
                inside = False
            if inside:
                m = FIELD.match(line)
                if m:
                    names[m.group(1)] = True
                continue
            m = HEAD.match(line)
            if m and ":" in line:
                names[m.group(1)] = names.get(m.group(1), False) or spec
    return names


def foreign():
    """Names that a file takes from the kit's library."""
    own = {f.split("/")[1] for f in glob.glob("crates/*")}
    names = set()
    for f in files("crates/**/*.antt", "crates/*/src/*.rt"):
        for m in re.finditer(r"use ([^\s{;]+)\.\{([^}]*)\}", open(f, encoding="utf-8").read()):
            parts = m.group(1).split(".")
            if parts[0] != "Rattle" or parts[1] not in own:
                names |= {n.strip() for n in m.group(2).split(",")}
    return names


def table():
    names, theirs = declared(), foreign()
    known = {definition(n) for n, is_definition in names.items() if is_definition} | theirs
    turn = {}
    for name, is_definition in names.items():
        if name.startswith("◌") or name in theirs:
            continue
        new = definition(name) if is_definition else lemma(name, known)
        if new != name:
            turn[name] = new
    for name in LEMMAS:
        old = name.replace("getD", "get_d").replace("-", "_")
        if old in names and not names[old] and old not in theirs and lemma(name, known) != old:
            turn[old] = lemma(name, known)
    for old in sorted(set(turn) | {"on_list"}):
        new = turn.get(old, old)
        if old in FIELDS:
            turn[old] = FIELDS[old]
        elif not names.get(old, True) and (new in known or sum(n == new for n in turn.values()) > 1):
            turn[old] = new + "_lem"
    after = {}
    for old in names:
        after.setdefault(turn.get(old, old), set()).add(old)
    for new, olds in sorted(after.items()):
        if len(olds) > 1 or new in theirs and new not in names:
            print(f"falls together: {' '.join(sorted(olds))}, as {new}")
    return turn


def ghost_lines(text):
    """The line numbers of a source file's imports and clauses."""
    at, depth = set(), 0
    for i, line in enumerate(text.split("\n")):
        code = line.strip()
        if depth == 0 and not re.match(r"(ghost|requires|ensures)\b", code):
            continue
        at.add(i)
        if not code.startswith("ghost use"):
            depth += code.count("{") - code.count("}")
    return at


def main():
    turn = table()

    def word(m):
        return turn.get(m.group(0)) or within(m.group(0))

    changed = 0
    for f in files("crates/**/*.antt", "crates/*/src/*.rt", "crates/*/must-fail/*.edit", "docs/*.md", "README.md"):
        text = open(f, encoding="utf-8").read()
        if f.endswith(".rt"):
            at = ghost_lines(text)
            lines = text.split("\n")
            new = "\n".join(TOKEN.sub(word, l) if i in at else l for i, l in enumerate(lines))
        elif f.endswith(".md"):
            new = re.sub(r"`[^`\n]*`", lambda s: TOKEN.sub(word, s.group(0)), text)
        elif f.endswith(".edit"):
            new = "\n".join(TOKEN.sub(word, l) if l[:5] in ("old: ", "new: ") else l for l in text.split("\n"))
        else:
            new = TOKEN.sub(word, text)
        if new != text:
            changed += 1
            open(f, "w", encoding="utf-8").write(new)
    print(f"{len(turn)} names, {changed} files")
    if "-v" in sys.argv:
        for old, new in sorted(turn.items()):
            print(old, new)


main()
