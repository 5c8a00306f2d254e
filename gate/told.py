#!/usr/bin/env python3
"""Holds what progress.py tells to a run of which the times are known: one crate is done, one is under way, one is to come, and of one only the sources were read.
It ends with 'N passed, M failed'."""
import importlib.machinery, importlib.util, io, pathlib, sys, time

sys.dont_write_bytecode = True
HERE = pathlib.Path(__file__).resolve().parent
sys.path.insert(0, str(HERE))
import progress

DONE, UNDER_WAY, TO_COME, READ = (("jwt_mac", "proofs"), ("jwt_text", "proofs"), ("jwt_jws", "tests"), ("jwt_c", "proofs"))
WANTED = {DONE: 2.0, UNDER_WAY: 6.0, TO_COME: 5.0}
# What `rt try --test` says of a test that ran out of time by the clock, and of one that the limit of processor time ended.
LATE = "test a::b ... FAILED\n    checked: no-answer: the program did not end within the time limit\n    run=no-answer\n"
ENDED = "test a::d ... FAILED\n    checked: fault kind=signal: the program was killed by signal 9 (SIGKILL)\n    run=fault\n"


class Sampled:
    """The times of a run that began ten minutes ago."""

    def __init__(self, wanted):
        self.begun = time.time() - 600
        self.last = {DONE: time.time() - 60, UNDER_WAY: time.time() + 60}
        self.last |= {READ: time.time() - 60} if READ in wanted else {}

    def minutes(self):
        return {DONE: 3.0, UNDER_WAY: 2.0, READ: 0.1}


class Screen(io.StringIO):
    """What is written, to a terminal or not."""

    def __init__(self, is_terminal):
        super().__init__()
        self.is_terminal = is_terminal

    def isatty(self):
        return self.is_terminal


def told(is_terminal, wanted):
    """What is told of that run."""
    screen = Screen(is_terminal)
    telling = progress.Progress(Sampled(wanted), wanted, screen)
    time.sleep(2.5)
    telling.stop()
    return screen.getvalue()


def gate():
    """The gate itself."""
    loader = importlib.machinery.SourceFileLoader("check", str(HERE.parent / "check"))
    module = importlib.util.module_from_spec(importlib.util.spec_from_loader("check", loader))
    loader.exec_module(module)
    return module


def main():
    """Runs the rows, and gives the status."""
    counted = gate().counted_tests
    progress.processors = lambda: 2
    progress.os.sched_getaffinity = lambda _: {0, 1}
    there = "1 of 3 done, 10 minutes so far, about 4 minutes left"
    line = f"\r\x1b[K{there}: jwt_text (proofs)"
    rows = [
        ("at a terminal", told(True, WANTED), lambda it: it.startswith(line) and it.endswith("\r\x1b[K")),
        ("without one", told(False, WANTED), lambda it: it == f"jwt_mac: proofs done; {there}\n"),
        ("of which one was read alone", told(False, {**WANTED, READ: 2.1}), lambda it: it == f"jwt_mac: proofs done; {there.replace('of 3', 'of 4').replace('4 min', '6 min')}\n"),
        ("with no table", told(False, {}), lambda it: it == "jwt_mac: proofs done; 1 of 2 done, 10 minutes so far\n"),
        ("in words", progress.in_words(0.2), lambda it: it == "about 1 minute"),
        ("in words, where nothing is known", progress.in_words(None), lambda it: it == "some minutes"),
        ("of a whole run", progress.expected({DONE: 2.0, ("numbers", "proofs"): 20.0, progress.BEHIND: 30.0}), lambda it: it == 50.0),
        ("of a slower machine", progress.expected({DONE: 2.0, progress.UNIT: 0.2}, 0.6), lambda it: round(it, 6) == 6.0),
        ("of a chain", progress.expected({DONE: 4.0, ("jwt_keys", "proofs"): 3.0, ("jwt_keys", "tests"): 5.0}), lambda it: it == 12.0),
        ("of a run, with no table", progress.expected({}), lambda it: it is None),
        ("out of time by the clock", counted(f"test a::c ... ok\n{LATE}", 1), lambda it: it == (1, 0)),
        ("out of processor time", counted(f"{LATE}test a::c ... ok\n{ENDED}", 1), lambda it: it == (1, 1)),
        ("nothing counted", counted("", 1), lambda it: it == (0, 1)),
    ]
    failed = 0
    for what, said, is_right in rows:
        failed += not is_right(said)
        print(f"progress, {what}: {'as it must be' if is_right(said) else repr(said)}")
    print(f"{len(rows) - failed} passed, {failed} failed")
    return 1 if failed else 0


sys.exit(main())
