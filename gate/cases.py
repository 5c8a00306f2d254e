#!/usr/bin/env python3
"""Says whether each worked case, each row of the formats' tables and each vector from outside is a test or a row of data, as tests/rows/CASES.tsv has it.

A line there is: what it is, where it is, and texts that stand there, with a tab between two. Where: a file in `crates` and the name of a test, and a
text stands in that test or in what it names, in its file or in `jwt_support`; or a file of `tests/rows`, and the texts stand in one row. A heading ends
with the number of its lines, so that none goes unseen.
"""
import functools, pathlib, re, sys

TOP = pathlib.Path(__file__).resolve().parent.parent
TABLE = TOP / "tests/rows/CASES.tsv"
ITEM = re.compile(r"^(?:pub(?:\(crate\))? )?(?:static|const|fn|struct|enum|macro_rules!|impl(?:<[^>]*>)?) (\w+)", re.MULTILINE)


@functools.cache
def items(file):
    """The items of a file by name, each with its text and what stands in front of it."""
    text = file.read_text()
    places = [0, *(it.start() for it in ITEM.finditer(text)), len(text)]
    names = ["", *(it[1] for it in ITEM.finditer(text))]
    found = {}
    for name, start, end in zip(names, places, places[1:]):
        found[name] = found.get(name, "") + text[start:end]
    return found


@functools.cache
def reached(file, test):
    """The text of a test and of all that it names, in its file or in `jwt_support`; None where there is no such test."""
    if not file.is_file() or not re.search(rf"#\[test\]\n(?:#\[[^\n]*\n)*fn {test}\(", file.read_text()):
        return None
    files = [file, *sorted((TOP / "crates/jwt_support/src").glob("*.rt")), *file.parent.glob("*.rt")]
    texts, left = {}, [test]
    while left:
        name = left.pop()
        text = next((items(it)[name] for it in files if name in items(it)), None)
        if name not in texts and text is not None:
            texts[name] = text
            left += re.findall(r"\w+", text)
    return "\n".join(texts.values())


def lacking(where, texts):
    """What isn't there of these texts; None where all is."""
    file, _, test = where.partition(" ")
    if not test:
        path = TOP / "tests/rows" / f"{file}.txt"
        if not path.is_file():
            return "there is no such file of rows"
        rows = re.split(r"\n\n+", path.read_text())
        return None if any(all(it in row for it in texts) for row in rows) else "no row has all of its texts"
    text = reached(TOP / "crates" / file.replace("/", "/src/", 1), test)
    if text is None:
        return "there is no such test"
    missing = [it for it in texts if it not in text]
    return f"it doesn't have {missing[0]}" if missing else None


def main():
    passed, faults, heading, lines = 0, [], None, 0
    for line in [*TABLE.read_text().splitlines(), "# end: 0"]:
        if line.startswith("# "):
            if heading and lines != int(heading.rpartition(" ")[2]):
                faults.append(f"{heading}: there are {lines} lines")
            heading, lines = line[2:], 0
        elif line:
            what, where, *texts = line.split("\t")
            fault = lacking(where, texts) if texts else "no text"
            faults += [f"{what} ({where}): {fault}"] if fault else []
            passed, lines = passed + (fault is None), lines + 1
    print("\n".join([*(f"tests/rows/CASES.tsv: {it}" for it in faults), f"{passed} passed, {len(faults)} failed"]))
    return int(bool(faults))


if __name__ == "__main__":
    sys.exit(main())
