"""Whether the books were worth comparing, by what was counted.

A yes tells something unless it is of the same picture, of an impossible first one, or of a second one that says
nothing. Some pictures have to be refused, so that the calls are asked of such pairs too.
"""

TELLING, REFUSED = 1 / 3, 1 / 20  # of the yes, at least; of the pairs and of the common pictures, at most


def share(counts, part, whole):
    return counts[part] / max(1, counts[whole])


def compare_shares(tally, counts):
    telling, refused = share(counts, "telling", "yes"), share(counts, "refused", "pairs")
    not_joined = share(counts, "not joined", "joined")
    tally.check(f"Of the yes {telling:.3f} are not trivial.", {"enough": telling >= TELLING, "ought": True})
    tally.check(f"Of the pairs {refused:.3f} are refused.", {"some": refused > 0, "ought": True})
    tally.check(f"Of the pairs {refused:.3f} are refused.", {"few": refused <= REFUSED, "ought": True})
    tally.check(f"Of the common pictures {not_joined:.3f} are refused.", {"few": not_joined <= REFUSED, "ought": True})
