"""The basic blocks of the proved archive in a linked program: blocks.py PROGRAM MAP OUT.

MAP is the linker's map (-Wl,-Map). OUT gets the offset of each block from fow_judge, a line each, which cover.c reads. It is for x86-64.
"""
import re
import subprocess
import sys

ARCHIVE = "jwt_c.o"
PLACED = re.compile(r"^ (?:\.text\S*)?\s*0x([0-9a-f]+)\s+0x([0-9a-f]+)\s+(\S+)$")


def ranges_in(text):
    """Where the linker put code of the archive: from where to where, for each part."""
    # (a long name of a section has what follows it on a line of its own)
    joined = re.sub(r"\n (\.text\S*)\n", r"\n \1 ", text)
    found = [PLACED.match(re.sub(r"^ \.text\S*", " ", line)) for line in joined.splitlines() if line.startswith(" .text")]
    parts = [(int(it[1], 16), int(it[2], 16)) for it in found if it and ARCHIVE in it[3]]
    return [(start, start + size) for start, size in parts if size]


def disassembled(program, start, end):
    """The lines of objdump between two addresses."""
    command = ["objdump", "-d", "--no-show-raw-insn", f"--start-address={start}", f"--stop-address={end}", program]
    return subprocess.run(command, capture_output=True, text=True, check=True).stdout.splitlines()


def blocks_in(lines):
    """The addresses at which a basic block begins, and that of fow_judge: a function's first instruction, what a jump goes to, and what follows
    a jump or a return."""
    begins, instructions, is_first, judge = set(), set(), True, None
    for line in lines:
        named = re.match(r"^([0-9a-f]+) <(.*)>:$", line)
        if named:
            judge = int(named[1], 16) if named[2] == "fow_judge" else judge
            is_first = True
            continue
        found = re.match(r"^\s+([0-9a-f]+):\s+(\S+)(.*)$", line)
        if not found:
            continue
        place, word, rest = int(found[1], 16), found[2], found[3]
        instructions.add(place)
        is_padding = "nop" in word + rest or word in ("int3", "cs", "data16") or (word == "xchg" and "%ax,%ax" in rest)
        if is_first and not is_padding:
            begins.add(place)
            is_first = False
        if word.startswith("j") or word in ("ret", "retq", "ud2", "bnd"):
            is_first = True
            target = re.search(r"\b([0-9a-f]+) <", rest)
            if word.startswith("j") and target:
                begins.add(int(target[1], 16))
    return begins & instructions, judge


def main():
    program, name, out = sys.argv[1:]
    with open(name, errors="replace") as file:
        parts = ranges_in(file.read())
    begins, judge = blocks_in(disassembled(program, min(it for it, _ in parts), max(it for _, it in parts)))
    inside = sorted(it for it in begins if any(start <= it < end for start, end in parts))
    with open(out, "w") as file:
        file.writelines(f"{it - judge}\n" for it in inside)


main()
