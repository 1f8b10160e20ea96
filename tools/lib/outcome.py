"""The comparisons of tools/page.py and tools/lib/large_page.py."""
import time

# The maximum seconds until something happens.
SECONDS = 10


class Wrong(Exception):
    """A failed check; the text says what is wrong."""


def same(wanted, came, what):
    """Checks that two values are equal."""
    if wanted != came:
        raise Wrong(f"{what}: wanted {wanted!r:.300}, came {came!r:.300}")


def until(is_so, what, seconds=SECONDS):
    """Waits until `is_so` returns something true, and returns it; raises Wrong after `seconds`."""
    ends = time.monotonic() + seconds
    while not (value := is_so()):
        if time.monotonic() > ends:
            raise Wrong(f"in {seconds} s not: {what}")
        time.sleep(0.1)
    return value
