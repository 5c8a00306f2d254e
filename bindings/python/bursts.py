"""Bursts of calls by threads, for rates.py and for the programs of bench/peers that are in Python."""

from __future__ import annotations

import resource
import sys
import threading
import time
from typing import Callable, NamedTuple

# How long a thread waits between two bursts, in seconds. A burst begins where the clock is a multiple of a burst and a pause: so threads and processes begin
# together.
PAUSE = 0.02
CALLS = 16


class Words(NamedTuple):
    """What the program was called with."""

    threads: int
    seconds: float
    name: str
    burst: float
    remembers: bool


def read_words() -> Words:
    """The words of the command. Any others end the program."""
    words = sys.argv[1:]
    if len(words) not in (4, 5) or words[4:] not in ([], ["remember"]):
        sys.exit("usage: rates THREADS SECONDS NAME BURST [remember]")
    return Words(int(words[0]), float(words[1]), words[2], float(words[3]), len(words) == 5)


def print_rates(words: Words, call: Callable[[], object]) -> None:
    """Prints how many calls a second so many threads made in a burst in which none of them was switched out or began late, the median of these bursts,
    and how many there were."""
    end = time.time() + words.seconds
    made: list[dict[int, float]] = [{} for _ in range(words.threads)]
    workers = [threading.Thread(target=_judge, args=(words.burst, end, rates, call)) for rates in made]
    for worker in workers:
        worker.start()
    for worker in workers:
        worker.join()
    calm = sorted(sum(rates[n] for rates in made) for n in made[0] if all(n in rates for rates in made))
    print(f"{calm[len(calm) // 2] if calm else 0:.0f} {len(calm)}")


def _judge(burst: float, end: float, rates: dict[int, float], call: Callable[[], object]) -> None:
    """Calls in bursts until this moment, and notes the calls a second of each in which the thread wasn't disturbed, by the number of the burst."""
    period = burst + PAUSE
    for n in range(int(time.time() / period) + 1, int(end / period)):
        time.sleep(max(n * period - time.time(), 0))
        rate = _rate_of(n * period, burst, call)
        if rate > 0:
            rates[n] = rate


def _rate_of(start: float, burst: float, call: Callable[[], object]) -> float:
    """The calls a second of a burst that begins at this moment; 0 where the thread was disturbed."""
    calls, before, began = 0, _switched_out(), time.time()
    is_late = began - start > burst / 8
    while time.time() < start + burst:
        for _ in range(CALLS):
            call()
        calls += CALLS
    length = time.time() - began
    return 0 if is_late or _switched_out() != before else calls / length


def _switched_out() -> int:
    return resource.getrusage(resource.RUSAGE_THREAD).ru_nivcsw
