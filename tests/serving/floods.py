"""What asks without end beside a test, each in a process of its own, and how long others wait."""
import contextlib
import multiprocessing
import time
from typing import Callable, Iterator, List

from .server import Server


@contextlib.contextmanager
def flooded(server: Server, count: int, address: str, asks: Callable[[int, str, str], None]) -> Iterator[None]:
    """Beside so many connections of an address that ask without end, each in a process of its own."""
    words = (server.port, f"{server.uri}/a", address)
    running = [multiprocessing.Process(target=asks, args=words, daemon=True) for _ in range(count)]
    for process in running:
        process.start()
    time.sleep(0.5)
    try:
        yield
    finally:
        for process in running:
            process.kill()
            process.join()


def at_99(waits: List[float]) -> float:
    """What 99 of 100 waits aren't longer than."""
    return sorted(waits)[len(waits) * 99 // 100]


def seconds_to(what: Callable[[], object]) -> float:
    began = time.monotonic()
    what()
    return time.monotonic() - began
