"""The parameters of the curves as crates/ecdsa states them."""
import pathlib, re

CRATE = pathlib.Path(__file__).resolve().parent.parent.parent / "crates/ecdsa"
RECORD = re.compile(r"^(P\d+) = record \{\n(.*?)^\}", re.MULTILINE | re.DOTALL)
FIELD = re.compile(r"^  (\w+) = ([\d ^+-]+);$", re.MULTILINE)


def number(text):
    """The number that sums and differences of numerals and powers of them write."""
    return eval(text.replace("^", "**"), {"__builtins__": {}})  # digits, spaces, ^, + and - alone


def stated():
    """Each curve's record in specs/Curves.antt, by the curve's name: its numbers by theirs."""
    text = (CRATE / "specs/Curves.antt").read_text()
    return {name: {field: number(it) for field, it in FIELD.findall(body)} for name, body in RECORD.findall(text)}
