"""Tests of the cases themselves: test_cases.py FOLDER, which tests/cases/make has filled."""
import pathlib
import re
import subprocess
import sys
import tempfile
import unittest

import corpus
import table

FOLDER = pathlib.Path(sys.argv.pop(1))
KINDS = ("", "policy", "keys", "text", "form", "ceiling", "signature", "claims", "issue", "access", "denied")


def faults() -> set[str]:
    """Each fault of fowharimu.h by its kind and its name, but for those of proofs of possession and of bound tokens, which stand in tests/possession and tests/c."""
    header = (corpus.TOP / "include/fowharimu.h").read_text()
    numbers = re.search(r"enum fow_fault \{(.*?)\n\};", header, re.S)[1]
    names = dict(re.findall(r'case (FOW_\w+):\s+return "(\w+)"', (corpus.TOP / "bindings/c/fault_name.c").read_text()))
    return {f"{KINDS[int(number) // 100]}.{names[word]}" for word, number in re.findall(r"(FOW_(?!PROOF_|BINDING_)\w+) = ([1-9]\d{2,3})\b", numbers)}


def said() -> dict[str, str]:
    """The stored answers."""
    return table.read_answers((FOLDER / "stored.tsv").read_text())


class Cases(unittest.TestCase):
    def test_each_fault_stands_in_an_answer(self) -> None:
        seen = table.faults_of(list(said().values()))
        self.assertEqual(faults() - seen, set(table.NEVER))
        self.assertEqual(seen - faults(), set())

    def test_the_documents_have_their_number(self) -> None:
        for name in ("README.md", "CONTRIBUTING.md", "tests/README.md", "tests/cases/README.md"):
            with self.subTest(name):
                numbers = re.findall(r"\b([\d,]+) cases\b", (corpus.TOP / name).read_text())
                self.assertEqual(set(numbers), {f"{len(said()):,}"})

    def test_no_token_by_Ed448_is_accepted(self) -> None:
        self.assertEqual({answer.split("\t")[0] for name, answer in said().items() if "Ed448" in name.split("/")[1]}, {"refused"})

    def test_a_difference_is_found(self) -> None:
        stored = (FOLDER / "stored.tsv").read_text()
        first, _, rest = stored.partition("\n")
        for what, text in {
            "as it is": (stored, 0),
            "another verdict": (first.replace("accepted", "refused", 1) + "\n" + rest, 1),
            "a case less": (rest, 1),
            "a case more": (stored + "more" + first[first.index("\t") :] + "\n", 1),
            "more in the last field": (f"{first}00\n{rest}", 1),
            "a field more": (f"{first}\t\n{rest}", 1),
        }.items():
            with self.subTest(what), tempfile.TemporaryDirectory() as room:
                pathlib.Path(room, "stored.tsv").write_text(stored)
                pathlib.Path(room, "cases.txt").write_text("")
                pathlib.Path(room, "said").write_text(text[0])
                command = [corpus.TOP / "tests/cases/run", room, "stored", "sh", "-c", 'cat "${1%/*}/said"', "sh"]
                self.assertEqual(subprocess.run(command, capture_output=True).returncode, text[1])


if __name__ == "__main__":
    unittest.main()
