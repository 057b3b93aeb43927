"""What is given behind a script's name: a number, or the seed of what it tries at random."""

from __future__ import annotations

import random
import sys


def number_given(place: int, otherwise: int) -> int:
    """The number that is the word at this place, or another if there is no such word."""
    return int(sys.argv[place]) if len(sys.argv) > place else otherwise


def seed_given(place: int) -> int:
    """The seed that is the word at this place, or a random one. It is printed, so that the run can be made again."""
    seed = number_given(place, random.randrange(10**6))
    print(f"seed {seed}")
    return seed
