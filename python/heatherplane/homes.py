"""Where a star is at home: document 01, "Home and signature", over arrays. For pictures alone: the calls compute homes themselves."""
from __future__ import annotations

import numpy as np

from .library import Growth, Parameters

MODULUS = 2**31 - 1


def scrambled(multiplier: int, power: int, numbers: np.ndarray) -> np.ndarray:
    """X(power) of each number."""
    return numbers.astype(np.int64) * pow(multiplier, power, MODULUS) % MODULUS


def homes(parameters: Parameters, growth: Growth, numbers: np.ndarray) -> np.ndarray:
    """The home page of each number under a growth state."""
    p = parameters
    page = scrambled(p.multiplier, 1, numbers) % (p.width * p.groups)
    for i in range(growth.expansions + 1):
        size, count = p.width + i % p.width, p.groups << i // p.width
        t = count - 1 - page % count
        rank = t % p.step * (count // p.step) + np.minimum(t % p.step, count % p.step) + t // p.step
        moves = scrambled(p.multiplier, 2 * i + 2, numbers) * (size + 1) <= MODULUS
        if i == growth.expansions:
            moves &= rank < growth.expanded
        page = np.where(moves, size * count + rank, page)
    return page
