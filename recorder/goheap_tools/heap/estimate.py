"""How many objects a sampled one stands for."""

import math


def factor(slot: int, rate: int) -> float:
    """How many objects a sampled one stands for, as Go's tools estimate it: an object of s bytes is sampled with probability 1 - exp(-s / rate)."""
    return -1 / math.expm1(-slot / rate) if rate > 1 and slot else 1
