"""Refresh numbers: the ring 1 to 4,294,967,295, after whose end comes 1; a stamp of 0 marks a summary never filled.
Also stamps for the generators of this folder, and what kinds of them a comparison has reached.
"""
RING = 2 ** 32 - 1
FURTHEST = 2 ** 31 - 1  # the highest lead; the lowest is as far behind


def stamp_after(need, steps):
    """So many steps round the ring from a need that is not 0, or back from it."""
    return (need - 1 + steps) % RING + 1


def lead(need, stamp):
    """None where there is no lead."""
    if stamp == 0:
        return None
    return (stamp - need + FURTHEST) % RING - FURTHEST if need else 0


def is_admitted(need, stamp):
    by = lead(need, stamp)
    return by is not None and by >= 0


# ---- for generators

def a_need(random):
    return random.choice((0, 0, 1, 2, RING, RING - 5, 2 ** 31, random.randint(1, RING)))


def an_admitted_stamp(random, need):
    if need == 0:
        return random.choice((1, FURTHEST, 2 ** 31, RING, random.randint(1, RING)))
    return stamp_after(need, random.choice((0, 0, 1, 9, FURTHEST, random.randint(0, FURTHEST))))


def a_stamp_left_out(random, need):
    if need == 0 or random.random() < 0.25:
        return 0
    return stamp_after(need, -random.choice((1, 2, FURTHEST, FURTHEST, random.randint(1, FURTHEST))))


# ---- kinds

def is_admitted_with_zero(need, stamp):
    """By document 01, whose ring has a 0: what a comparison must tell apart."""
    return (stamp - need) % 2 ** 32 < 2 ** 31


def stamp_kinds(need, stamp):
    by = lead(need, stamp)
    if stamp == 0:
        yield "never filled"
    if need == 0:
        yield "never filled under need 0" if stamp == 0 else "need 0"
    if need and stamp and by * (stamp - need) < 0:
        yield "ahead across the end" if by > 0 else "behind across the end"
    if abs(by or 0) == FURTHEST:
        yield "highest lead" if by > 0 else "lowest lead"
    if is_admitted(need, stamp) != is_admitted_with_zero(need, stamp):
        yield "left out, but not on a ring with 0" if is_admitted_with_zero(need, stamp) else "admitted, but not on a ring with 0"


LEAST = 200  # so many books of each kind a comparison must have
KINDS = ("never filled", "need 0", "never filled under need 0", "ahead across the end", "behind across the end",
         "highest lead", "lowest lead", "admitted, but not on a ring with 0", "left out, but not on a ring with 0")
