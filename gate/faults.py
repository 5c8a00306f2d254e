#!/usr/bin/env python3
"""Draws what is said of faults from the table of them, faults.txt.

    gate/faults.py            says what isn't as it is drawn
    gate/faults.py --write    draws it anew

A new fault is a variant of its enum, written by hand, and its lines in the table. Drawn are: its name in the definitions and in the code of the enum's crate,
its number in those of `jwt_handles`, the header's enum, bindings/c/fault_name.c, the tables of docs/FAULTS.md, the sentences of the command, those on advice from docs/COMMAND.md, and the messages of
Python and of Node, and the numbers that a caller has by itself. It ends with 'N passed, M failed', where a drawn file counts as one, and a fault as two.
"""
import dataclasses, json, pathlib, re, sys

TOP = pathlib.Path(__file__).resolve().parent.parent
TABLE = TOP / "gate/faults.txt"
HEAD = "| Name | For C | Meaning | What to do |\n|---|---|---|---|\n"
# What a fault is of, by the first words of its constant's name.
KINDS = {"POLICY": "policy", "KEYS": "keys", "TEXT": "token", "FORM": "token", "WORK": "token", "CALLS": "token", "SIG": "token",
         "CLAIM": "token", "ISSUE": "issue", "ACCESS": "access", "DENIED": "denied", "PROOF": "proof", "BINDING": "binding"}


@dataclasses.dataclass(frozen=True)
class Fault:
    """A row of the table: the kind of its group, its number, its name, the sentence on it, and what to do."""

    kind: str
    number: int
    name: str
    means: str
    do: str

    def constant(self):
        """Its name for C."""
        # (of a fault of a claim `Claim` isn't said twice)
        name = re.sub(r"^Claim(?=[A-Z])", "", self.name) if self.kind == "CLAIM" else self.name
        words = re.sub(r"(?<=[a-z0-9])(?=[A-Z])", "_", name).upper()
        return f"FOW_{words}" if self.kind == "-" else f"FOW_{self.kind}_{words}"


def groups():
    """The groups of the table: why, and the faults."""
    found, kind = [], ""
    lines = [it for it in TABLE.read_text().splitlines() if it and not it.startswith("#")]
    while lines:
        line = lines.pop(0)
        if line.startswith("= "):
            kind, _, why = line[2:].partition(": ")
            found.append((why, []))
        else:
            number, name = line.split(" ")
            found[-1][1].append(Fault(kind, int(number), name, lines.pop(0).strip(), lines.pop(0).strip()))
    return found


def faults():
    """All faults of the table."""
    return [it for _, rows in groups() for it in rows]


# ---- the library for C


def header(text):
    """The header with its enum of faults."""
    begin, _, rest = text.partition("enum fow_fault {\n")
    last = faults()[-1]
    parts = ["    FOW_NO_FAULT = 0,\n"]
    for why, rows in groups():
        lines = [(f"{it.constant()} = {it.number}{'' if it == last else ','}", it.means) for it in rows]
        wide = max(len(it) for it, _ in lines)
        parts.append(f"    /* {why} */\n" + "".join(f"    {it.ljust(wide)} /* {means} */\n" for it, means in lines))
    return f"{begin}enum fow_fault {{\n" + "\n".join(parts) + "};" + rest.partition("};")[2]


def names_in_c(text):
    """The names of the faults in C."""
    begin, middle, rest = text.partition("    switch (fault) {\n")
    rows = "".join(f'    case {it.constant()}:\n        return "{it.name}";\n' for it in faults())
    return begin + middle + rows + rest[rest.index("    default:") :]


# ---- the crates: of each enum the file that has it, the kinds of its faults, and where their names and numbers stand


@dataclasses.dataclass(frozen=True)
class Rows:
    """Lines in a file, one for each variant of an enum: what each begins with, what stands before a variant there, and what it says of a fault."""

    file: str
    begin: str
    says: str


@dataclasses.dataclass(frozen=True)
class Enum:
    """An enum of faults: its name, its file, the kind of its faults, the hundred that their numbers begin with, and where rows of them stand."""

    name: str
    file: str
    kind: str
    hundred: int
    rows: tuple

    def variants(self):
        """Each variant, and whether it carries something."""
        text = (TOP / "crates" / self.file).read_text()
        body = re.search(rf"pub enum {self.name}(?:<.*?>)? {{\n(.*?)^}}", text, re.MULTILINE | re.DOTALL)[1]
        return {it[1]: it[2] == "(" for it in re.finditer(r"^    ([A-Z]\w*)([,(])", body, re.MULTILINE)}

    def faults(self):
        """The faults of the table that are its variants."""
        kept = self.variants()
        return [it for it in faults() if it.kind == self.kind and it.number // 100 == self.hundred and it.name in kept]


def enum(name, file, kind, hundred, crate, names, number, handles, says="{}", code="{}", alias=""):
    """An enum: the definition `names` of its names in `crate`, and `number` of its numbers in the file `handles` of jwt_handles."""
    spec, source = handles
    rows = [Rows(f"jwt_handles/specs/{spec}.antt", f"{number} {alias}", f" = {says}"), Rows(f"jwt_handles/src/{source}.rt", f"        {name}::", f" => {code},")]
    if names:
        rows += [Rows(f"{crate}/specs/FaultNames.antt", f"{names} {alias}", ' = codes "{name}"'), Rows(f"{crate}/src/{file}", f"            {name}::", ' => "{name}",')]
    return Enum(name, f"{crate}/src/{file}", kind, hundred, tuple(rows))


REFUSAL, REPORT = "refusal {} 0 0 0 0", "FowReport::refusal({}, 0, 0, 0, 0)"
FAULTS = ("Faults", "faults")
ENUMS = [
    enum("PolicyFault", "policy_fault.rt", "POLICY", 1, "jwt_policy", "policy_fault_name", "policy_number", FAULTS, alias="policy."),
    enum("KeysFault", "fault.rt", "KEYS", 2, "jwt_keys", "keys_fault_name", "keys_number", FAULTS, alias="keys."),
    enum("InputFault", "report.rt", "TEXT", 3, "jwt_verify", "input_fault_name", "input_number", FAULTS, alias="input."),
    enum("FormFault", "fault.rt", "FORM", 4, "jwt_jws", "form_fault_name", "form_number", FAULTS, alias="form."),
    enum("SigFault", "sig_fault.rt", "SIG", 6, "jwt_policy", "sig_fault_name", "sig_number", FAULTS, alias="sig."),
    enum("ClaimFault", "claim_fault.rt", "CLAIM", 7, "jwt_policy", "claim_fault_name", "claim_fault_number", FAULTS, alias="claim."),
    enum("IssueFault", "fault.rt", "ISSUE", 8, "jwt_issue", "issue_fault_name", "issue_number", FAULTS, alias="issue."),
    enum("AccessFault", "access_fault.rt", "ACCESS", 9, "jwt_access", "access_fault_name", "access_number", ("Access", "access"), alias="fault."),
    enum("Denial", "denial.rt", "DENIED", 10, "jwt_access", "denial_name", "denial_number", ("Access", "access")),
    enum("PolicyLack", "policy.rt", "PROOF", 11, "jwt_possession", "lack_name", "lack_number", ("Possessing", "possessing"), alias="lack."),
    enum("KeyFault", "own_key.rt", "PROOF", 12, "jwt_possession", "key_fault_name", "key_numbers", ("Possessing", "possessing"), REFUSAL, REPORT, "key."),
    enum("RequestFault", "request.rt", "PROOF", 13, "jwt_possession", "request_fault_name", "request_number", ("Possessing", "possessing"), alias="request."),
    enum("BindingFault", "binding.rt", "BINDING", 14, "jwt_possession", None, "binding_number", ("Bound", "bound")),
]


def drawn_rows(text, of, rows):
    """A file's text with the rows of an enum: those that stand there stay in their order, each new one comes behind the one before it in the table."""
    is_spec, carries, last = rows.file.endswith(".antt"), of.variants(), None
    for it in of.faults():
        args = "" if not carries[it.name] else " _" if is_spec else "(_)"
        head, _, alias = rows.begin.rpartition(" ") if is_spec else (rows.begin, "", "")
        variant = f"{head} ({alias}{it.name}{args})" if is_spec and args else f"{head} {alias}{it.name}" if is_spec else f"{rows.begin}{it.name}{args}"
        line = variant + rows.says.replace("{}", str(it.number)).replace("{name}", it.name)
        stands = re.search(rf"^{re.escape(variant)} =.*$", text, re.MULTILINE)
        if stands:
            text = text[: stands.start()] + line + text[stands.end() :]
        elif last:
            text = text.replace(f"{last}\n", f"{last}\n{line}\n", 1)
        last = line
    return text


# ---- pages and messages


def page(text):
    """docs/FAULTS.md with its tables; what stands between a title and its table stays."""
    for why, rows in groups():
        # (a byte is a byte in what users read)
        lines = "".join(f"| `{it.name}` | `{it.constant()}` | {plain(it.means)} | {it.do} |\n" for it in rows)
        title = f"## {plain(why)[0].upper()}{plain(why)[1:]}\n"
        begin, found, rest = text.partition(title)
        if not found:
            begin, rest = f"{text.rstrip()}\n\n", ""
        intro, _, behind = rest.partition("| Name | For C |")
        behind = re.sub(r"\A.*\n(?:\|.*\n)*", "", behind) if behind else ""
        text = f"{begin}{title}{intro if intro.strip() else chr(10)}{HEAD}{lines}{behind}"
    return text


def plain(text):
    """A sentence in the words of those who read no standard."""
    return re.sub(r"\boctets\b", "bytes", text)


def meanings():
    """By what a fault is of, what each name means, as far as it isn't of C alone, and what to do."""
    found = {kind: {} for kind in KINDS.values()}
    for it in faults():
        do = re.sub(r"\[`(\w+\.md)`\]\(\S+?\)", r"docs/\1", it.do)
        found[KINDS[it.constant().split("_")[1]]][it.name] = plain(it.means).partition("; ")[0], do
    return found


def python(_):
    """Python's module of messages."""
    lines = ['"""What each fault means, by what it is of. Drawn from gate/faults.txt by gate/faults.py."""', ""]
    for kind, rows in meanings().items():
        lines += [f"{kind.upper()} = {{", *(f"    {json.dumps(name)}: {json.dumps(means)}," for name, (means, _) in rows.items()), "}"]
    return "\n".join(lines) + "\n"


def node(_):
    """Node's module of messages."""
    def spelled(text):
        return "'" + text.replace("\\", "\\\\").replace("'", "\\'") + "'" if "'" not in text else json.dumps(text)

    lines = ["'use strict';", "// What each fault means, by what it is of. Drawn from gate/faults.txt by gate/faults.py.", "module.exports = {"]
    for kind, rows in meanings().items():
        lines += [f"  {kind}: {{", "    __proto__: null,", *(f"    {name}: {spelled(means)}," for name, (means, _) in rows.items()), "  },"]
    return "\n".join([*lines, "};"]) + "\n"


def hidden(table):
    """A function that hands a table out, so that no proof but its own looks into the rows."""
    return [f"pub(crate) fn {table.lower()}() -> &'static [(&'static str, &'static str)] {{", f"    &{table}", "}"]


def rattle(_):
    """The command's table of sentences about tokens."""
    lines = ["//! What the refusals and the denials of a token mean and what to do, drawn from gate/faults.txt by gate/faults.py."]
    for table, kind in (("REFUSALS", "token"), ("DENIALS", "denied")):
        rows = [(name, f"{means}. {last}") for name, (means, last) in meanings()[kind].items()]
        lines += ["", f"static {table}: [(&str, &str); {len(rows)}] = ["]
        for name, text in rows:
            lines.append(f"    row! {{ {json.dumps(name)}, {json.dumps(text, ensure_ascii=False)} }},")
        lines += ["];", "", f"/// The {table.lower()} by their names, each with its sentences.", *hidden(table)]
    return "\n".join(lines) + "\n"


ADVICE = "| Advice | What it says | What to write |"


def advice(_):
    """The command's table of sentences about advice, from the table of docs/COMMAND.md."""
    rows = re.findall(r"^\| (\w+) \| (.*) \| (.*) \|$", (TOP / "docs/COMMAND.md").read_text().partition(ADVICE)[2].partition("\n\n")[0], re.MULTILINE)
    lines = ["//! What each advice says and what to write, drawn from docs/COMMAND.md by gate/faults.py.", ""]
    lines.append(f"static ADVICE: [(&str, &str); {len(rows)}] = [")
    for name, says, write in rows:
        lines.append(f"    row! {{ {json.dumps(name)}, {json.dumps(f'{says}. Write {write}.', ensure_ascii=False)} }},")
    return "\n".join([*lines, "];", "", "/// The advice by its name, with its sentence.", *hidden("ADVICE")]) + "\n"


# Each drawn file with what draws it of its text.
DRAWN = {
    "include/fowharimu.h": header,
    "bindings/c/fault_name.c": names_in_c,
    "docs/FAULTS.md": page,
    "bindings/python/src/fowharimu/_meanings.py": python,
    "bindings/node/meanings.js": node,
    "crates/jwt_output/src/reasons/sentences.rt": rattle,
    "crates/jwt_output/src/reasons/advice.rt": advice,
}
# The numbers of faults that stand by themselves in a file: the constant, and what stands around its number.
ALONE = [
    ("crates/jwt_handles/src/requests.rt", "FOW_PROOF_OTHER_NONCE", r"const OTHER_NONCE: u32 = (\d+);"),
    ("crates/jwt_handles/src/requests.rt", "FOW_PROOF_OTHER_KEY", r"const OTHER_KEY: u32 = (\d+);"),
    ("crates/jwt_handles/src/requests.rt", "FOW_PROOF_PATH_FORM", r"const PATH_FORM: u32 = (\d+);"),
    ("bindings/rust/fowharimu-sys/src/lib.rs", "FOW_PROOF_OTHER_NONCE", r"const FOW_PROOF_OTHER_NONCE: u32 = (\d+);"),
    ("bindings/node/index.js", "FOW_DENIED_SCOPE_MISSING", r"\bSCOPE_MISSING = (\d+)"),
    ("bindings/node/index.js", "FOW_PROOF_OTHER_NONCE", r"\bOTHER_NONCE = (\d+)"),
    ("bindings/node/index.js", "FOW_BINDING_UNKNOWN", r"\bBINDING_UNKNOWN = (\d+)"),
    ("bindings/python/src/fowharimu/_access.py", "FOW_DENIED_SCOPE_MISSING", r"_SCOPE_MISSING = (\d+)"),
    ("bindings/python/src/fowharimu/_possession.py", "FOW_PROOF_OTHER_NONCE", r"_OTHER_NONCE, \w+ = \d+, (\d+)"),
    ("bindings/java/src/org/example/fowharimu/Native.java", "FOW_DENIED_SCOPE_MISSING", r"SCOPE_MISSING = (\d+);"),
    ("bindings/java/src/org/example/fowharimu/Proof.java", "FOW_PROOF_OTHER_NONCE", r"OTHER_NONCE = (\d+);"),
]


def with_number(text, constant, around):
    """A file's text with the number of this constant; the text is as it was where it doesn't stand there once."""
    number = next(str(it.number) for it in faults() if it.constant() == constant)
    found = list(re.finditer(around, text))
    return text[: found[0].start(1)] + number + text[found[0].end(1) :] if len(found) == 1 else ""


def drawn():
    """Of each drawn file its text, and what is drawn of it."""
    draws = [(path, draw) for path, draw in DRAWN.items()]
    draws += [(f"crates/{rows.file}", lambda text, of=of, rows=rows: drawn_rows(text, of, rows)) for of in ENUMS for rows in of.rows]
    draws += [(path, lambda text, it=(constant, around): with_number(text, *it)) for path, constant, around in ALONE]
    said = {}
    for path, draw in draws:
        text = (TOP / path).read_text() if (TOP / path).is_file() else ""
        said[path] = (text, draw(said.get(path, (text, text))[1]))
    return said


def main():
    said = drawn()
    if "--write" in sys.argv[1:]:
        for path, (text, now) in said.items():
            if text != now:
                (TOP / path).write_text(now)
        return 0
    failed = [f"{path}: it isn't what gate/faults.txt gives: gate/faults.py --write" for path, (text, now) in said.items() if text != now]
    listed = {it for of in ENUMS for it in of.faults()}
    # (these are told by the verdict's own fault and by a proof's)
    alone = {"WorkExceeded", "CallsExceeded", "OtherKey"}
    failed += [f"{it.name}, {it.number}: no enum has it" for it in faults() if it not in listed and it.name not in alone]
    failed += [f"{of.name}: the table lacks {it}" for of in ENUMS for it in of.variants() if it != "OutOfMemory" and it not in {row.name for row in of.faults()}]
    for it in failed:
        print(it)
    count = len(said) + 2 * len(faults())
    print(f"{count - len(failed)} passed, {len(failed)} failed")
    return 1 if failed else 0


if __name__ == "__main__":
    sys.exit(main())
