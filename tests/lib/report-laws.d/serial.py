"""Serial arithmetic of 32 bits (RFC 1982)."""

HALF, MASK = 1 << 31, (1 << 32) - 1


def below(one, other):
    """Whether a number stands before another one by RFC 1982. Half the circle apart, neither is before the other."""
    return 0 < (other - one) & MASK < HALF


def beyond(one, other):
    """How far a number stands behind another one; negative where it stands before it."""
    return ((one - other + HALF) & MASK) - HALF
