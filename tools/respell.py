#!/usr/bin/env python3
"""Brings the names of this repository's own definitions and lemmas to snake case. Run once, at the top, right after port.py.

A definition was written as leafWords, a lemma as leaf-words. Both become leaf_words; where the two fall together, the definition keeps
that name and the lemma becomes leaf_words_lem. Names of the library, of functions in src/, strings, inputs and outputs stay.
"""

import collections
import os
import re

TOKEN = re.compile(r"[^\W\d][\w'\u2032\-]*")
USE = re.compile(r"(?m)^\s*(?:pub )?use ([^\s{]+?)(?:\.\{([^}]*)\})?(?: as \S+)?$")
OWN_PROOF = re.compile(r"/proofs/.*/(Proof|Answers|Invariants)\.antt$")
# Fields of records that were told from a name of src/ by a dash alone, and constructors, which are no lemmas.
FIELDS = {"chest-um": "chest_um", "waist-um": "waist_um", "sleeve-um": "sleeve_um"}
CASES = {"in-contents": "in_contents_case", "kinds-apart": "kinds_apart_case"}
# Lemmas that port.py had turned already.
TURNED = "gone_into int_at laid_out last_word plain_ok plain_rows row_words text_at".split()


def snake(word):
    word = word.replace("-", "_")
    return re.sub(r"(?<=[a-z0-9'])([A-Z])", lambda m: "_" + m.group(1).lower(), word)


def is_turned(word):
    return (word[0].islower() or not word[0].isascii()) and bool("-" in word or re.search(r"[a-z0-9][A-Z]", word))


def paths(endings):
    for folder, dirs, files in os.walk("crates"):
        dirs[:] = sorted(d for d in dirs if d != "out")
        for name in sorted(files):
            if name.endswith(endings):
                yield os.path.join(folder, name)


def read(path):
    with open(path, encoding="utf-8") as it:
        return it.read()


def write(path, text):
    with open(path, "w", encoding="utf-8") as it:
        it.write(text)


def names():
    """What each of this repository's names becomes."""
    crates = set(os.listdir("crates"))
    library, laws = set(), []
    for path in paths(".antt"):
        text = read(path)
        for module, words in USE.findall(text):
            if module.split(".")[0] != "Rattle" or module.split(".")[1] not in crates:
                library.update(w.split(" as ")[0].strip() for w in words.split(","))
        if not OWN_PROOF.search(path):
            laws.append(text)
    words = set()
    for text in laws:
        code = "\n".join(line for line in re.sub(r"--.*", "", text).split("\n") if not re.match(r"(pub )?(use|mod) ", line))
        words.update(TOKEN.findall(code))
    turned = {w for w in words if is_turned(w)} - library
    groups = collections.defaultdict(set)
    for w in words - library:
        groups[snake(w) if w in turned else w].add(w)
    made = {}
    for name, group in groups.items():
        is_shared = any("-" not in w and w in turned for w in group) or len(group) > 1
        for w in group:
            if w in FIELDS or w in CASES:
                made[w] = FIELDS.get(w) or CASES[w]
            elif w in turned:
                made[w] = name + "_lem" * ("-" in w and is_shared)
            elif w in TURNED:
                made[w] = name + "_lem"
    return made


def turned_before(made):
    """The names that port.py turned: pages and edits still have them in the old spelling."""
    words = set()
    for path in paths((".antt", ".rt")):
        words.update(TOKEN.findall(read(path)))
    words = {made.get(w, w) for w in words}

    class Names(dict):
        def get(self, word, other):
            if word in made or word in words or not is_turned(word):
                return made.get(word, other)
            return snake(word) if snake(word) in words else other

        def items(self):
            return made.items()

    return Names(made)


def turn(text, made, keep=frozenset()):
    def one(m):
        word = m.group()
        if word in keep or (m.start() > 1 and text[m.start() - 1] == "." and keep):
            return word
        return made.get(word, word)

    return TOKEN.sub(one, text)


def in_comment(text, made):
    """Prose has words with dashes of its own: there only what is between backticks is a name, or what has a capital inside."""
    camel = {k: v for k, v in made.items() if "-" not in k and k not in TURNED}
    parts = re.split(r"(`[^`]*`)", text)
    return "".join(turn(p, made if p.startswith("`") else camel) for p in parts)


def antt(path, made):
    keep = frozenset()
    text = read(path)
    if OWN_PROOF.search(path):
        keep = frozenset(re.findall(r"(?m)^(?:abbrev )?(?:pub )?([^\s:]+) :", text)) | {""}
    out = []
    for line in text.split("\n"):
        code, dash, comment = line.partition("--")
        out.append(turn(code, made, keep) + dash + (comment if keep else in_comment(comment, made)))
    write(path, "\n".join(out))


def source(path, made):
    made = {k: v for k, v in made.items() if k not in TURNED}
    out = []
    for line in read(path).split("\n"):
        code, slashes, comment = line.partition("//")
        parts = re.split(r'("(?:[^"\\]|\\.)*")', code)
        code = "".join(p if i % 2 else turn(p, made) for i, p in enumerate(parts))
        out.append(code + slashes + in_comment(comment, made))
    write(path, "\n".join(out))


def page(path, made):
    parts = re.split(r"(`[^`\n]*`)", read(path))
    write(path, "".join(turn(p, made) if i % 2 else p for i, p in enumerate(parts)))


def main():
    made = names()
    before = turned_before({k: v for k, v in made.items() if k not in TURNED})
    for path in list(paths(".antt")):
        antt(path, made)
    for path in list(paths(".rt")):
        source(path, made)
    for path in list(paths(".edit")):
        camel = {k: v for k, v in made.items() if "-" not in k and k not in TURNED}
        is_antt = re.search(r"(?m)^file: .*\.antt", read(path))
        out = [turn(line, before if is_antt else camel) if line.startswith(("old:", "new:")) else in_comment(line, made) for line in read(path).split("\n")]
        write(path, "\n".join(out))
    for folder in ("docs", "."):
        for name in sorted(os.listdir(folder)):
            if name.endswith(".md") and name not in ("PORT.md", "LANDINGS.md"):
                page(os.path.join(folder, name), before)
    print(f"{len(made)} names")


main()
