"""What the verdicts of a judge and of a tray have in common."""

from typing import NoReturn


class Verdict:
    """Every object is true in an `if`, so a No or a Waiting would pass for a yes there: a verdict has no
    truth value but is_yes."""

    @property
    def is_yes(self) -> bool:
        """Whether it is yes: not where it is no, and not where anything is awaited."""
        return False

    def __bool__(self) -> NoReturn:
        raise TypeError(f"a verdict, here {type(self).__name__}, is no truth value: write .is_yes behind it")
