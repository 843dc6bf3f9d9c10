"""Numbers that are drawn."""
from __future__ import annotations


class Dice:
    """Numbers that look random and are the same in each run."""

    def __init__(self, state: int) -> None:
        self.state = state

    def roll(self, sides: int) -> int:
        """Returns a number below `sides`."""
        self.state = (self.state * 6364136223846793005 + 1442695040888963407) % 2**64
        return (self.state >> 33) % sides
