"""Treatments of refused pages: each takes something away or rewrites it, and tells what."""
# SO, SS2, ESC and SS3. Without them a page can only type primary characters, move, clear and ring.
LEADING_ON = (b"\x0e", b"\x19", b"\x1b", b"\x1d")
