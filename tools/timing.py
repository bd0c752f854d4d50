"""timing: what the tests share that say how long something takes."""
import time


def in_time(once, most, least=0):
    """Whether something takes this many seconds at least, and fewer than the most in one of five tries, since a busy machine holds up some. `once` gives its seconds, or None if it
    was wrong, which it may be in no try."""
    for _ in range(5):
        took = once()
        if took is None or took < least:
            return False
        if took < most:
            return True
    return False


def seconds_of(once):
    """How long something takes, if it is right."""
    begun = time.monotonic()
    is_right = once()
    return time.monotonic() - begun if is_right else None
