"""What is in use in one recording and in another one, the base, by what a table has a row for."""

from typing import Any, List, NamedTuple

from goheap_tools.heap.profile import Profile, Row


class Difference(NamedTuple):
    """A row of both: the bytes and the objects in use as of the last mark end, and the bytes allocated, here and in the base; and by how much the
    bytes in use are more than the base would have if it had allocated as many objects."""

    name: Any
    base: float
    live: float
    base_objects: float
    objects: float
    base_allocated: float
    allocated: float
    normalised: float

    def change(self) -> float:
        """By how many bytes in use it grew."""
        return self.live - self.base


def in_use(profile: Profile) -> float:
    return sum(row.used for row in profile.rows.values())


def allocations(profile: Profile) -> float:
    return sum(row.allocs for row in profile.rows.values())


def ratio_of(profile: Profile, base: Profile) -> float:
    """How many objects were allocated here for each one in the base."""
    return allocations(profile) / allocations(base) if allocations(base) else 1.0


def differences(profile: Profile, base: Profile) -> List[Difference]:
    """The rows that have something in use in one of the two, those that grew most first."""
    ratio, none = ratio_of(profile, base), Row()
    found = []
    for name in {**profile.rows, **base.rows}:
        here, there = profile.rows.get(name, none), base.rows.get(name, none)
        if here.used or there.used:
            counts = there.used, here.used, there.allocs - there.frees, here.allocs - here.frees, there.allocated, here.allocated
            found.append(Difference(name, *counts, here.used - ratio * there.used))
    return sorted(found, key=lambda row: (-row.change(), -row.live, str(row.name)))
