"""The callers' programs that tests/remote/run and tests/issuers/run speak to: how each is made, and the environment in which it runs."""
import os
import pathlib
import subprocess
import threading

TOP = pathlib.Path(__file__).resolve().parent.parent.parent
BUILD = TOP / "build"


class Program:
    """A program that answers a line to a line."""

    def __init__(self, command, environment):
        # (with few arenas of malloc, which else grow with the threads)
        there = {**os.environ, **environment, "MALLOC_ARENA_MAX": "2"}
        self.process = subprocess.Popen(command, stdin=subprocess.PIPE, stdout=subprocess.PIPE, encoding="utf-8", env=there, cwd=TOP)

    def ask(self, *words):
        """What the program answers to a command, within a minute."""
        late = threading.Timer(60, self.process.kill)
        late.start()
        self.process.stdin.write("\t".join(map(str, words)) + "\n")
        self.process.stdin.flush()
        line = self.process.stdout.readline().rstrip("\n")
        late.cancel()
        return line

    def size(self):
        """The resident octets of the program."""
        return int(pathlib.Path(f"/proc/{self.process.pid}/statm").read_text().split()[1]) * os.sysconf("SC_PAGE_SIZE")


def python(room):
    there = {"PYTHONPATH": str(TOP / "bindings/python/src"), "FOWHARIMU_LIBRARY": str(BUILD / "libfowharimu.so.0"), "PYTHONUTF8": "1"}
    return ["python3", "-B", str(TOP / "bindings/python/remote_cases.py")], there


def go(room):
    there = {"PKG_CONFIG_PATH": str(BUILD), "CGO_CFLAGS": f"-O2 -I{TOP}/include", "CGO_LDFLAGS": f"-L{BUILD}", "LD_LIBRARY_PATH": str(BUILD)}
    subprocess.run(["go", "build", "-o", str(room / "remote_cases"), "./remotecases"], cwd=TOP / "bindings/go", env={**os.environ, **there}, check=True)
    return [str(room / "remote_cases")], there


def node(room):
    # (with its garbage collected before each look at its size)
    words = ["node", "--expose-gc", "--max-semi-space-size=1", str(TOP / "bindings/node/remote_cases.js")]
    return words, {"FOWHARIMU_NODE": str(BUILD / "node/fowharimu.node")}


def java(room):
    jar = next((BUILD / "java").glob("fowharimu-*.jar"))
    source = TOP / "bindings/java/test/RemoteCases.java"
    subprocess.run(["javac", "-Xlint:all", "-Werror", "-cp", str(jar), "-d", str(room / "java"), str(source)], check=True)
    # (with a heap that has its whole size at once, and by one of Java's two compilers: the other one takes memory for itself as it goes)
    return ["java", "-Xms64m", "-Xmx64m", "-XX:+UseSerialGC", "-XX:+AlwaysPreTouch", "-XX:TieredStopAtLevel=1", "-cp", f"{jar}:{room / 'java'}", "RemoteCases"], {}


def rust(room):
    there = {"FOWHARIMU_LIB_DIR": str(BUILD), "CARGO_TARGET_DIR": str(BUILD / "rust")}
    command = ["cargo", "build", "--offline", "--quiet", "-p", "fowharimu", "--example", "remote_cases"]
    subprocess.run(command, cwd=TOP / "bindings/rust", env={**os.environ, **there}, check=True)
    return [str(BUILD / "rust/debug/examples/remote_cases")], {}


def c(room):
    sources = [TOP / "bindings/c/several.c", BUILD / "libfowharimu.a"]
    warnings = ["-std=c11", "-Wall", "-Wextra", "-Werror", "-pedantic", "-g", "-O1", "-fsanitize=address,undefined", "-fno-sanitize-recover=all"]
    command = [os.environ.get("CC", "cc"), *warnings, f"-I{TOP}/include", "-o", room / "several", *sources, "-lcrypto"]
    subprocess.run([str(it) for it in command], check=True)
    return [str(room / "several")], {}


# With the command and the file of make that each needs.
CALLERS = {
    "python": (python, "python3", "libfowharimu.so.0"),
    "go": (go, "go", "libfowharimu.so.0"),
    "node": (node, "node", "node/fowharimu.node"),
    "java": (java, "javac", "java/libfowharimu_jni.so"),
    "rust": (rust, "cargo", "libfowharimu.a"),
    "c": (c, os.environ.get("CC", "cc"), "libfowharimu.a"),
}
