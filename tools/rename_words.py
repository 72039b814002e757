#!/usr/bin/env python3
"""Spells the names that this repository declares in specs/ and proofs/ in snake case: codedBits, bits-below -> coded_bits, bits_below.

usage: tools/rename_words.py [--check]     at the top of the repository; --check writes nothing and shows the names that would change

A name is turned where it is declared in a file of specs/ or a file of lemmas, and in every file that has it: .antt, .rt, .edit, .md.
A name that a file imports from a library keeps its spelling there, as does what stands behind a dot, unless it is a record's field of this
repository. Types, modules and functions of src/ keep their names. Two names that would fall together stop the run.
"""
import collections
import os
import re
import sys

WORD = r'[^\s(){}.;,@"«»\[\]`:]+'
DECLARED = re.compile(r"^( *)(?:(?:unfoldable|abbrev|opaque|pub|private|instance|data|record) )*(" + WORD + r")(?: \{[^{}\n]*\})* :(?= |$)", re.M)
FIELDS = re.compile(r"^( *)(?:pub )?record [^\n]* where\n((?:\1  [^\n]*\n| *--[^\n]*\n|\n)*)", re.M)
OWN = sorted(d for d in os.listdir("crates") if os.path.isdir(f"crates/{d}/src"))
# Words whose plain spelling is taken: by a library, or by another name of this repository in the same file.
APART = {
    "live-count": "its_live_count",
    "wrong-sync": "its_wrong_sync",
    "clean-counts": "counts_of_clean",
    "first-large": "is_first_large",
    "has-fewest": "fewest_held",
    "last-below": "last_branch_below",
    "legal-power": "its_power_legal",
    "message-packed": "packed_message",
    "nothing-common": "never_common",
    "over-budget": "when_over_budget",
    "wrong-length": "when_wrong_length",
    "position-digits": "digits_of_position",
    "sensor-digits": "digits_of_sensors",
    "read-refused": "refused_read",
    "received-bits": "bits_received",
    "right-lengths": "lengths_right",
    "rounded-down": "down_rounded",
    "sizeBy": "size_for",
    "size-by": "size_by_place",
    "lowestBy": "lowest_for",
    "word-disagreements": "disagreements_of_word",
    "zero-weight": "weight_zero",
    "countBits": "count_bit_lists",
    "countBits-same": "count_bit_lists_same",
    "countBits-summed": "count_bit_lists_summed",
    "givenBack": "word_given_back",
}
# The names that port.py turned itself, in .rt and .antt alone: here they are turned in .md and .edit too.
TURNED = """
    add-step all-pass and-low answer-word answerIn answerOf as-long at-bound at-least at-most at-zero below-at
    below-or-not best-takes bit-below bits-each bitsOf both-false both-true by-first by-index by-value
    clamp-spec code-below code-fits codeOf codesOf cond-both count-bits count-kept count-none count-same
    countOf cut-later digits-append digits-decimal digits-in distance-is down-fits encode-injective end-below
    endOf enter-one enum-told equal-or-not fieldAt fieldOf fieldsOf first-of first-one found-before frameOf
    getD-reverse getD-tabulate given-back goes-on head-at held-more held-none in-order in-parts index-below
    indexAt is-digit kept-more last-none last-taken length-symbols line-other lineOf linesOf live-same liveOf
    lowest-by main-spec minus-one mul-at never-met next-fits next-more no-digit no-other no-power no-word
    noField noHeader noWord none-before none-free none-more none-of none-within none-yet not-alike not-live
    not-low not-within number-in number-same numberIn numberOf of-none of-word onZero one-apart one-more
    one-size oneAt ones-and ones-bit ones-low other-length other-place others-below own-bits parent-in
    parentOf parts-from passedAt passes-at place-same placeOf power-below put-count put-one put-spec put-then
    quotient-fits read-all read-length read-none read-spec readingOf reads-as room-small same-length same-line
    same-more same-test sameList setAt shared-of span-tail step-back step-same step-sum sub-read sum-first
    sum-fits sum-same sum-step summed-same taken-of third-of to-the-end total-first walk-ends walk-up
    with-first within-step word-at word-below word-of word-read word-same wordIn wordOf write-read write-spec
    writes-as written-read zero-minus
""".split()


def snake(name):
    words = re.sub(r"(?<=[a-z0-9₀-₉])([A-Z])", lambda m: "_" + m[1].lower(), name)
    return re.sub(r"(?<=[\w'])-(?=[\w])", "_", words)


def turns(name):
    return bool(re.match(r"[a-z_][\w'-]*$", name)) and not name.startswith("Need") and snake(name) != name


def files(*endings):
    for top in ("crates", "docs", "README.md"):
        if os.path.isfile(top):
            yield top
        for folder, dirs, names in os.walk(top):
            dirs[:] = sorted(d for d in dirs if d != "out")
            for name in sorted(names):
                if name.endswith(endings):
                    yield os.path.join(folder, name)


def is_walk(path):
    """The proof of one function, whose own names are the goals' and so Rattle's."""
    return path.endswith(("/Proof.antt", "/Answers.antt", "/Invariants.antt"))


def imported(text):
    """The names that a file has from a library."""
    names = set()
    for path, listed in re.findall(r"\buse ([^\s;{]+)\{([^}]*)\}", text):
        steps = path.strip(".").split(".")
        if not (steps[0] == "Rattle" and steps[1] in OWN):
            names |= {n.strip() for n in re.split(r"[,\s]+", listed)}
    return names


def read(path):
    with open(path, encoding="utf-8") as f:
        return f.read()


def table():
    found = collections.defaultdict(set)
    fields = set()
    for path in files(".antt"):
        if is_walk(path):
            continue
        text = read(path)
        code = re.sub(r"--[^\n]*", "", text)
        libs = imported(text)
        for indent, name in DECLARED.findall(code):
            if turns(name) and name not in libs:
                found[name].add(path)
        for block in FIELDS.finditer(text):
            fields |= {name for _, name in DECLARED.findall(block[2])}
        # Variables: what a λ, a let, a clause's left side or a type binds.
        for name in re.findall(WORD, code):
            if turns(name) and name not in libs and re.search(r"(?:let |λ \(?|\(|\{| )" + re.escape(name) + r" (?:[^\s()]+ )*(?:[:=.]|↦)", code):
                found[name].add(path)
    return found, fields


def main():
    check = "--check" in sys.argv
    found, fields = table()
    own = new = {name: APART.get(name, snake(name)) for name in found}
    by_new = collections.defaultdict(set)
    for name, to in new.items():
        by_new[to].add(name)
    bad = 0
    for to, names in sorted(by_new.items()):
        if len(names) > 1:
            print("fall together:", to, sorted(names), sorted({p for n in names for p in found[n]}))
            bad += 1
    every = {}
    for path in files(".antt", ".rt"):
        every[path] = read(path)
    for path, text in every.items():
        words = set(re.findall(WORD, re.sub(r"--[^\n]*|//[^\n]*", "", text)))
        libs = imported(text)
        for name in words & set(new):
            if name in libs:
                print("a library's:", path, name)
            elif new[name] in words and path.endswith(".antt"):
                print("stands already:", path, name, new[name])
    if check:
        print(len(new), "names")
        return
    if bad:
        raise SystemExit("names fall together")
    turned_before = {name: snake(name) for name in TURNED}
    for path in files(".antt", ".rt", ".edit", ".md"):
        text = read(path)
        new = (turned_before | own) if path.endswith((".md", ".edit")) else own
        libs = imported(text) if path.endswith((".antt", ".rt")) else set()

        def turn(m):
            before, name = m[1], m[2]
            if name in libs or name not in new:
                return m[0]
            if path.endswith(".md") and "-" in name and before != "`" and not re.search(r"[a-z][A-Z]", name):
                return m[0]
            if before == "." and is_walk(path) and name not in fields:
                return m[0]
            return before + new[name]

        turned = re.sub(r"(^|[\s(){}.;,@\"«»\[\]`:])(" + WORD + r")", turn, text, flags=re.M)
        turned = re.sub(r"(^|[\s(){}.;,@\"«»\[\]`:])(" + WORD + r")", turn, turned, flags=re.M)
        if turned != text:
            with open(path, "w", encoding="utf-8") as f:
                f.write(turned)


main()
