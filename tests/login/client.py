"""Speaks for login.py, which lies in the folder that it is told: a line that is a mistake's name has it log in, and is answered by a line."""
import sys
import urllib.error

sys.path.insert(0, sys.argv[1])
import login


def said(error):
    """What went wrong, in words."""
    return " ".join(str(it) for it in (type(error).__name__, getattr(error, "fault", None), getattr(error, "claim", None)) if it is not None)


session = {}
for line in sys.stdin:
    word, _, rest = line.rstrip("\n").partition("\t")
    try:
        print(login.begin(session) if word == "begin" else f"in {login.finish(session, rest)['sub']}", flush=True)
    except Exception as error:
        print(f"HTTP {error.code}" if isinstance(error, urllib.error.HTTPError) else said(error), flush=True)
