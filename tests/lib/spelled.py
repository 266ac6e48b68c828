"""A page as a sender spelled it, in operands of four words, for tests that take such pages apart; and an image of a
disk that has it."""
from random import Random

from naplps.writer import star
from stream_writer import StreamWriter

WHITE = (1.0, 1.0, 1.0)


def logo() -> bytes:
    """A service's logo: circles, a star and arcs."""
    page = StreamWriter().clear().domain()
    page.rgb(0.08, 0.2, 0.55).rectangle(0, 0, 0.999, 0.78)
    page.rgb(1, 0.84, 0.1).circle(0.5, 0.46, 0.24)
    page.rgb(0.08, 0.2, 0.55).circle(0.5, 0.46, 0.19)
    page.rgb(*WHITE).polygon(star(0.5, 0.46, 0.17))
    page.rgb(0.92, 0.2, 0.15).domain((0.008, 0.008))
    page.arc([(0.12, 0.56), (0.5, 0.765), (0.88, 0.56)])
    page.arc([(0.08 + i * 0.105, 0.19 + 0.01 * (-1) ** i) for i in range(9)])
    page.domain()
    page.rgb(*WHITE).at(0.325, 0.085, "POLARIS", "double")
    page.rgb(0.75, 0.85, 1).at(0.225, 0.03, "VIDEOTEX SERVICE  1984", "normal")
    return page.made()


def image_with_logo() -> bytes:
    """Bytes of no known kind with the logo inside."""
    return Random(5).randbytes(700) + b"\xf6" * 90 + logo() + b"\xf6" * 90 + Random(6).randbytes(500)
