#!/usr/bin/env python3
"""Writes REFUSALS.md and shears.html from numbers.txt. With --check it writes nothing and says whether both, and the words in
the C header and in the Rust crate, are equal to the source; the last line is then 'N passed, M failed', and the exit status is
0 only when nothing failed."""

import html
import itertools
import pathlib
import re
import sys

DOCS = pathlib.Path(__file__).resolve().parent
SOURCE = DOCS / "numbers.txt"
ENGINEER = DOCS / "REFUSALS.md"
BENCH = DOCS / "shears.html"
HEADER = DOCS.parent / "include" / "msdtp.h"
RUST = DOCS.parent / "bindings" / "rust" / "src" / "refused.rs"

FIELDS = ["number", "meaning", "of", "from", "engineer", "smallest", "answer", "tells", "explained", "label", "says", "do", "why"]
NO_REFUSAL = "No refusal"
READING = "Reading"


# The source.

def read_block(text):
    """The fields of one block, by name."""
    block = {}
    for line in re.sub(r"\n +", " ", text).splitlines():
        name, colon, value = line.partition(": ")
        if not colon or name not in FIELDS or name in block:
            raise ValueError(f"no field, or a second one of its name: {line}")
        block[name] = value.strip()
    return block


def needed(block):
    """The fields that a block must have. Explaining tells of every number of reading."""
    number = block.get("number")
    if number == "other":
        return ["meaning"]
    own = ["meaning", "from"] if number != "EMPTY" else []
    told = ["tells", "explained", "why"] if block.get("of") == READING else []
    return own + ["of", "engineer", "smallest", "answer", "says", "do"] + told


def read_source():
    lines = SOURCE.read_text(encoding="utf-8").splitlines()
    text = "\n".join(line for line in lines if not line.startswith("#"))
    blocks = [read_block(block) for block in re.split(r"\n\s*\n", text.strip())]
    for block in blocks:
        wanting = [name for name in needed(block) if not block.get(name)]
        if wanting:
            raise ValueError(f"number {block.get('number')} wants {', '.join(wanting)}")
    return blocks


def on_pages(blocks):
    return [block for block in blocks if block["number"] != "other"]


# The engineer's page.

ENGINEER_HEAD = """# The numbers, for the engineer

A message that cannot be read whole, a table that cannot be written whole, a pair of tables that cannot be compared whole, a message that cannot be salvaged, a list that is too short, or a measure sheet without three sound figures, is refused with a number. **Nothing is guessed, and nothing is cut from a refused sheet.** The page for the person at the bench is [shears.html](shears.html). Both pages are written from [numbers.txt](numbers.txt) by `python3 docs/pages.py`.

The place that reading gives counts bytes from the start of the message, the first byte being 0. With 2 to 9 it is the type-byte of the faulty object, otherwise it is 0. Writing, comparing and salvaging give no place; explaining tells reading's.

Reading a sheet gives reading's numbers with all that they tell. With 20 to 22 everything but the number is 0, and the table holds the reading. **With any number but 0 there are no figures.** Writing a sheet tells the length with 0 and 15.

With 2 and 3 reading, and with it normalising and reading a sheet, also tells how many bytes are missing: from the faulty object's own size, or its fixed length, to the end that it passes; where its size field is not whole, the missing bytes of that field alone, and 1 if none of it is there; where a length or count is cut short, the missing bytes of that integer. 65,536 stands for so many or more. With every other number it is 0. sheetlist does not print it.

Salvaging lists what it changed, each change by its place, its number of bytes and a number. **The number of a change is that of these bytes alone**: reading them as a message by themselves, with a table of 65,540 words, gives it, and it means what it means below. An object that is now an EMPTY has 3 to 10. The rest that was dropped has 2, or, where its first byte alone is refused, 4 or 7. With 15 salvaging tells the bytes needed, with 16 the entries, with 1 and 10 nothing. A message that is refused with 2 may only be late: wait for the bytes told missing, and salvage it when they do not come.

Explaining tells why a message is refused: reading's whole answer, as with a table of so many words; the places of all containers that are open around the faulty object, the outermost first; and the evidence, the fact in its bytes for which reading refuses it. What that is stands at the end of this page, by reading's number. **Explaining mends nothing**: what there is to do is told by reading's number as before.

Messages that were put end to end are read as one. If the last would be refused by itself with 2 to 9, and those before it are accepted, the whole, if it has at most 65,536 bytes, is refused with the same number and as many bytes missing, and its place is that of the last alone and the length of those before it. With 3 to 9 it is so too where more stands behind it. With 2 it is not: the object that is cut takes the bytes of the next message for its own. The limits are for all of them together: 1 and 10 can be due for the whole where they are due for none.

## Which number, if several are due

- **Reading**: 1. Then, from left to right, the first fault met, 2 to 9. Only if there is none: 10. Only then: 11.
- **At one object**: 4; 7 for an outermost REPEAT; 5; 2 or 3; 6 or 7; its contents; 8 or 9.
- **Writing**: 12, 13, 14, 15, in this order.
- **Normalising**: reading's numbers, then writing's.
- **Comparing**: 12, for either table; then 16.
- **Salvaging**: 1, 15, 16, 10, in this order; 10 is for what would come out.
- **Explaining**: 16 alone. Reading's number stands beside it, and is that of reading.
- **Reading a sheet**: reading's numbers. Then, each for the whole sheet: 20, 21, 22. So an EMPTY beside a figure out of range is 21.
- **Writing a sheet**: 20, 22, 15, in this order.

## Where a number can come from

12 comes of what the engine gives to write or to compare, and 13 of what it gives to write, never of a room's message. 14 and 15 come of that too, and of normalising a good message from a room. 16 comes of comparing, also of tables that were read from good messages. 1, 10, 15 and 16 come of salvaging a room's message, good or damaged, and 16 of explaining a refused one. 20, 21 and 22 come of a good message from a room that is read as a measure sheet; 15, 20 and 22 also of what the engine gives to write as one. Nothing gives 17 to 19.
"""

EXPLAINED_HEAD = """
## What explaining tells

Beside the containers, by the number of reading. `in 0, 2: end 6` are two containers, at 0 and at 2, and an end that was passed, byte 6 being the first past it.

"""

ENGINEER_FOOT = """
## To print the page by the shears

```
chromium --headless --no-pdf-header-footer --print-to-pdf=shears.pdf docs/shears.html
```

As root, add `--no-sandbox`. It is two sheets of A4: what to do, to hang up by the shears, and what a refusal is explained by, to hang beside it. Any browser prints it as well, with its own headers and footers turned off.
"""

COLUMNS = ["No.", "Meaning", "What is wrong, and what helps", "Smallest that gets it", "Answer"]
EXPLAINED_COLUMNS = ["Reading's number", "What is told", "Of the smallest that gets it"]


def markdown_table(head, rows):
    lines = [head, ["---"] * len(head)] + rows
    return "".join(f"| {' | '.join(line)} |\n" for line in lines)


def spans(numbers):
    """Ascending numbers in words, as '0, 12 to 15'."""
    parts = []
    for _, run in itertools.groupby(enumerate(numbers), lambda pair: pair[1] - pair[0]):
        run = [number for _, number in run]
        parts += [f"{run[0]} to {run[-1]}"] if len(run) > 2 else map(str, run)
    return ", ".join(parts)


def operations_table(blocks):
    """The numbers of each operation; the operations as the source first names them."""
    numbers = {}
    for block in blocks:
        for operation in block["from"].split(", ") if "from" in block else []:
            numbers.setdefault(operation, []).append(int(block["number"]))
    return markdown_table(["Operation", "Numbers"], [[operation, spans(given)] for operation, given in numbers.items()])


def engineer_row(block):
    return [block["number"], block.get("meaning", ""), block["engineer"], block["smallest"], block["answer"]]


def engineer_page(blocks):
    page = ENGINEER_HEAD + "\n" + operations_table(blocks)
    for heading, group in itertools.groupby(on_pages(blocks), lambda block: block["of"]):
        page += f"\n## {heading}\n\n" + markdown_table(COLUMNS, [engineer_row(block) for block in group])
    told = [[block["number"], block["tells"], block["explained"]] for block in blocks if "tells" in block]
    return page + EXPLAINED_HEAD + markdown_table(EXPLAINED_COLUMNS, told) + ENGINEER_FOOT


# The page by the shears.

STYLE = """
@page {{ size: A4; margin: 10mm 11mm; }}
html {{ color: #000; background: #fff; }}
body {{ margin: 0 auto; max-width: 188mm; }}
body {{ font: {words}pt/1.15 "Liberation Sans", Arial, Helvetica, "DejaVu Sans Condensed", sans-serif; }}
h1, h2, p, dl, dd {{ margin: 0; }}
h1 {{ font-size: 1.8em; }}
h2 {{ font-size: 1.25em; margin-top: 0.3em; }}
.refused h2 {{ font-size: 1.8em; text-align: center; border: 1mm solid #000; padding: 0.1em; margin: 0.35em 0 0.2em; }}
table {{ width: 100%; border-collapse: collapse; border-bottom: 0.6mm solid #000; margin-top: 0.25em; }}
thead {{ position: absolute; width: 1px; height: 1px; overflow: hidden; clip-path: inset(50%); }}
tbody {{ border-top: 0.6mm solid #000; }}
th, td {{ text-align: left; padding: 0 0 0 2.5mm; border-top: 0.2mm solid #000; }}
tbody th {{ font-size: {numbers}pt; line-height: 1; white-space: nowrap; padding: 0; }}
.do {{ font-weight: bold; border-left: 0.2mm solid #000; width: 60mm; }}
.accepted table {{ height: 3.9em; }}
.refused table {{ height: 178mm; }}
.why {{ break-before: page; }}
.why p {{ margin-top: 0.5em; }}
.why td {{ padding-top: 0.2em; padding-bottom: 0.2em; }}
dl {{ margin-top: 0.5em; }}
dl > div {{ display: flex; padding-top: 0.15em; }}
dt {{ font-weight: bold; }}
dd {{ flex: 1; padding-left: 0.3em; display: flex; }}
dd::after {{ content: ""; flex: 1; margin-left: 0.5em; border-bottom: 0.4mm dotted #000; }}
"""

BENCH_PAGE = """<!DOCTYPE html>
<!-- Written by docs/pages.py from docs/numbers.txt. To print it on two sheets of A4:
     the end of docs/REFUSALS.md says how. -->
<html lang="en">
<head>
<meta charset="utf-8">
<title>Before you cut</title>
<style>{style}</style>
</head>
<body>
<header>
<h1>Before you cut</h1>
</header>
<main>
<section class="accepted">
<h2>Accepted, but stop if it says</h2>
{accepted}</section>
<section class="refused">
<h2>Refused: cut nothing.</h2>
<p>It says “refused 6 at 212”, also of a part: look for the 6, and pass on both.</p>
{refused}</section>
</main>
<footer>
<dl>
<div><dt>The room</dt><dd>that sent the sheet:</dd></div>
<div><dt>The maker</dt><dd>of what the room sends with:</dd></div>
<div><dt>The desk</dt><dd>that looks after our engine:</dd></div>
</dl>
</footer>
<section class="why">
<h1>Why it was refused</h1>
<p>Asked why, it tells which boxes are around the fault, the outermost first, each by its place; and what is here, by the number of the refusal. A place counts bytes from the start of the sheet, the first being 0.</p>
<p>Pass on all that it tells. To know why mends nothing: <strong>cut nothing</strong>, and do what the other sheet says.</p>
{why}</section>
</body>
</html>
"""

# Sizes in points. Thirty lines, as `lines` counts them, were printed with them in Liberation Sans, and were one sheet. The second
# sheet has room for more than twice the lines that it has.
SIZES = {"words": 14, "numbers": 18}
MOST_LINES = 30
WIDEST_SAYS = 50
WIDEST_DO = 23
WIDEST_WHY = 100


def escaped(words):
    return html.escape(words, quote=False).replace("'", "’")


def by_do(blocks):
    """The runs of neighbours with the same thing to do."""
    return [list(group) for _, group in itertools.groupby(blocks, lambda block: block["do"])]


def bench_group(group):
    """The rows of neighbours with the same thing to do, which stands once beside them all."""
    do = f'<td class="do" rowspan="{len(group)}">{escaped(group[0]["do"])}</td>'
    rows = ""
    for block in group:
        name = escaped(block.get("label", block["number"]))
        rows += f'<tr><th scope="row">{name}</th><td>{escaped(block["says"])}</td>{do}</tr>\n'
        do = ""
    return f"<tbody>\n{rows}</tbody>\n"


def bench_table(blocks):
    heads = "".join(f'<th scope="col">{head}</th>' for head in ["It says", "What that is", "What to do"])
    groups = "".join(map(bench_group, by_do(blocks)))
    return f"<table>\n<thead><tr>{heads}</tr></thead>\n{groups}</table>\n"


def why_table(blocks):
    """What explaining tells, on the second sheet."""
    told = [block for block in blocks if "why" in block]
    rows = "".join(f'<tr><th scope="row">{block["number"]}</th><td>{escaped(block["why"])}</td></tr>\n' for block in told)
    heads = '<th scope="col">It says</th><th scope="col">Asked why, it tells</th>'
    return f"<table>\n<thead><tr>{heads}</tr></thead>\n<tbody>\n{rows}</tbody>\n</table>\n"


def refusals(blocks):
    return [block for block in on_pages(blocks) if block["of"] != NO_REFUSAL]


def bench_page(blocks):
    accepted = [block for block in on_pages(blocks) if block["of"] == NO_REFUSAL]
    refused = refusals(blocks)
    style = STYLE.format(**SIZES)
    tables = {"accepted": bench_table(accepted), "refused": bench_table(refused), "why": why_table(blocks)}
    return BENCH_PAGE.format(style=style, **tables)


def lines(group):
    """About how many lines of the page neighbours with the same thing to do take."""
    return max(len(group), -(-len(group[0]["do"]) // WIDEST_DO))


# The check.

def header_words():
    """The number and words of each case of msdtp_meaning, by the number or by its name."""
    text = HEADER.read_text(encoding="utf-8")
    values = dict(re.findall(r"#define\s+(\w+)\s+(\d+)\b", text))
    cases = re.findall(r'(?:case\s+(\w+)|default)\s*:\s*return\s+((?:"[^"]*"\s*)+);', text)
    return [(values.get(name, name) or "other", "".join(re.findall(r'"([^"]*)"', words))) for name, words in cases]


def rust_words():
    """The number and words of each arm of Refused::meaning."""
    arms = re.findall(r'\b(\d+|_)\s*=>\s*\{?\s*"([^"]*)"', RUST.read_text(encoding="utf-8"))
    return [("other" if number == "_" else number, words) for number, words in arms]


def same_text(path, page):
    """Whether a file is what the source says, and its first line that is not."""
    have = path.read_text(encoding="utf-8").splitlines() if path.exists() else []
    pairs = enumerate(itertools.zip_longest(have, page.splitlines()), 1)
    other = next((at for at, (line, due) in pairs if line != due), None)
    return other is None, f"{path.name}: line {other} is not as numbers.txt says; run docs/pages.py"


def same_words(path, have, due):
    """One answer for each number that has words in a file or in the source: they stand in both, once, and are equal."""
    for number in sorted({*due, *(number for number, _ in have)}, key=lambda number: (len(number), number)):
        found = [words for name, words in have if name == number]
        yield found == [due.get(number)], f"{path.name}: {number}: {found}, {due.get(number)!r} in numbers.txt"


def source_order(blocks):
    numbers = [block["number"] for block in blocks]
    counted = [int(number) for number in numbers[1:-1]]
    good = numbers[0] == "EMPTY" and numbers[-1] == "other" and counted == sorted(set(counted))
    return good, "numbers.txt: EMPTY, the numbers in order and each once, other"


def fits(blocks):
    """A loose sign that each page by the shears is still one sheet; only printing them shows that it is."""
    for block in on_pages(blocks):
        yield len(block["says"]) <= WIDEST_SAYS, f"numbers.txt: {block['number']} says it in {WIDEST_SAYS} characters"
    for block in blocks:
        if "why" in block:
            yield len(block["why"]) <= WIDEST_WHY, f"numbers.txt: {block['number']} tells why in {WIDEST_WHY} characters"
    count = sum(map(lines, by_do(refusals(blocks))))
    yield count <= MOST_LINES, f"shears.html: {count} lines, at most {MOST_LINES} were tried on one sheet"


def answers(blocks):
    due = {block["number"]: block["meaning"] for block in blocks if "meaning" in block}
    yield source_order(blocks)
    yield from fits(blocks)
    yield same_text(ENGINEER, engineer_page(blocks))
    yield same_text(BENCH, bench_page(blocks))
    yield from same_words(RUST, rust_words(), {number: words for number, words in due.items() if number != "0"})
    yield from same_words(HEADER, header_words(), due)


def check(blocks):
    failures = 0
    count = 0
    for good, told in answers(blocks):
        count += 1
        if not good:
            failures += 1
            print(f"failed: {told}")
    print(f"{count - failures} passed, {failures} failed")
    return failures == 0


def write(blocks):
    ENGINEER.write_text(engineer_page(blocks), encoding="utf-8")
    BENCH.write_text(bench_page(blocks), encoding="utf-8")
    return True


def main(arguments):
    if arguments not in ([], ["--check"]):
        print("usage: pages.py [--check]")
        return False
    try:
        blocks = read_source()
    except ValueError as fault:
        print(f"failed: numbers.txt: {fault}\n0 passed, 1 failed")
        return False
    return check(blocks) if arguments else write(blocks)


if __name__ == "__main__":
    sys.exit(0 if main(sys.argv[1:]) else 1)
