"""Prints how many calls a second so many threads make on one validator: rates.py THREADS SECONDS NAME BURST [remember]"""

import pathlib

from bursts import print_rates, read_words
from fowharimu import Validator

NOW = 1300819379


def main() -> None:
    """Prints the calls a second."""
    words = read_words()
    policy, keys, token = (pathlib.Path(f"{words.name}.{end}").read_bytes() for end in ("policy", "keys", "jwt"))
    with Validator(policy, keys, remember=(100 if words.remembers else 0, 4096)) as validator:
        print_rates(words, lambda: validator.validate(token, NOW))


if __name__ == "__main__":
    main()
