"""What the benches of the program print: a line for each row of the table in README.md."""


def row(what, beside, measured):
    """Prints a row. `bench/table` reads such lines."""
    print(f"{what} | {beside} | {measured}", flush=True)


def ratio(ours, theirs):
    """How many times as long ours takes, with two digits that say something."""
    times = ours / theirs
    return f"{times:.2f}" if times < 1 else f"{times:.1f}"
