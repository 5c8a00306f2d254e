"""Makes one crate of all crates of tests, in a copy of the repository, so that what they stand on is compiled once."""
import pathlib, re, shutil, subprocess

TOP = pathlib.Path(__file__).resolve().parent.parent
NAME = "all_tests"
LINE = re.compile(r"(\w+):(.*)")


def copy_crates(to):
    """Copies the crates to a folder, without their wrong bodies."""
    listed = subprocess.run(["git", "ls-files", "-co", "--exclude-standard", "crates", "crates.txt", "HANDLES"],
                            cwd=TOP, capture_output=True, text=True, check=True).stdout.splitlines()
    for path in listed:
        if (TOP / path).is_file() and "/must-fail/" not in path and "/wrong/" not in path:
            (to / path).parent.mkdir(parents=True, exist_ok=True)
            shutil.copy(TOP / path, to / path)
    subprocess.run(["git", "init", "-q"], cwd=to, check=True)


def with_tests():
    """The crates that have tests."""
    folders = [it.parent for it in sorted(TOP.glob("crates/*/src"))]
    return [it.name for it in folders if any("#[test]" in file.read_text() for file in (it / "src").rglob("*.rt"))]


def joined(to):
    """Copies the crates to a folder, with one crate in place of those that have tests, each of which is a module of it. Gives that crate's
    folder."""
    copy_crates(to)
    names, needs, lines = with_tests(), set(), []
    for line in (to / "crates.txt").read_text().splitlines():
        found = LINE.match(line)
        if found and found[1] in names:
            needs |= set(found[2].split())
        else:
            lines.append(line)
    (to / "crates.txt").write_text("\n".join([*lines, f"{NAME}: {' '.join(sorted(needs))}", ""]))
    source = to / "crates" / NAME / "src"
    source.mkdir(parents=True)
    for name in names:
        shutil.move(to / "crates" / name / "src", source / name)
        shutil.rmtree(to / "crates" / name)
        for file in (source / name).rglob("*.rt"):
            file.write_text(file.read_text().replace("crate::", f"crate::{name}::"))
        root = (source / name / "lib.rt").rename(source / f"{name}.rt")
        root.write_text("".join(it for it in root.read_text().splitlines(keepends=True) if not it.startswith(("//!", "#!["))))
    (source / "lib.rt").write_text("#![tactic(auto)]\n\n" + "".join(f"#[cfg(test)]\nmod {it};\n" for it in names))
    return source.parent
