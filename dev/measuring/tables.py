"""The tables that measurements print, line by line."""


def row(*cells: object) -> None:
    """Prints a row."""
    print(f"| {' | '.join(map(str, cells))} |", flush=True)


def head(*names: object) -> None:
    """Prints the head of a table."""
    row(*names)
    print("|---" * len(names) + "|", flush=True)
