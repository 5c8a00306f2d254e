"""What the scripts of the tests share: how octets are spelled, and how checks are told and counted."""
import base64


def base64url(octets: bytes) -> str:
    """The octets as base64url without padding (RFC 7515, section 2)."""
    return base64.urlsafe_b64encode(octets).rstrip(b"=").decode()


def octets_of(text: str) -> bytes:
    """The octets that a base64url text spells."""
    return base64.urlsafe_b64decode(text + "=" * (-len(text) % 4))


def hexadecimal(octets: bytes) -> str:
    """Octets as a table has them: in hexadecimal, and `-` where there are none."""
    return octets.hex() or "-"


def octets_in(word: str) -> bytes:
    """The octets that a word of a table spells."""
    return b"" if word == "-" else bytes.fromhex(word)


class Checks:
    """What a script checks, under its name: what doesn't hold is told with what was seen, and what holds is told where that is asked for."""

    def __init__(self, name: str, tells_all: bool = False):
        self.name, self.tells_all = name, tells_all
        self.results: list[bool] = []

    def __call__(self, what: str, holds: bool, shown: object = "") -> bool:
        """Notes whether something holds, and gives that."""
        self.results.append(bool(holds))
        if not holds:
            print(f"  {shown}")
        if self.tells_all or not holds:
            print(f"{self.name}, {what}: {'passed' if holds else 'failed'}", flush=True)
        return bool(holds)

    def end(self) -> int:
        """Says how many passed and failed, and gives the status of the script."""
        print(f"{self.results.count(True)} passed, {self.results.count(False)} failed")
        return 0 if all(self.results) else 1
