"""How a play is stopped by ^C and other signals."""
from command import at_a_stop, stopped


class Stop:
    """Whether ^C was pressed, or another signal asked for the end, since it was entered; a second one stops at once."""

    def __init__(self) -> None:
        self.is_asked = False

    def __enter__(self) -> "Stop":
        at_a_stop(self.ask)
        return self

    def ask(self, number: int, frame: object) -> None:
        if self.is_asked:
            stopped(number, frame)
        self.is_asked = True

    def __exit__(self, *_: object) -> None:
        at_a_stop(stopped)
