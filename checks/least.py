"""How many wrong bodies and quotations there are at least: a lost one counts as a failure.

checks/texts looks at the wrong bodies, by the folders that they stand in, and checks/promise at the
quotations of PROMISE.md and CLAUSES.md together. Whoever adds some raises the number, and nobody
lowers one.
"""
LEAST = {"must-fail": 17, "wrong-bodies": 120, "more-wrong-bodies": 163, "quotations": 111}


def lack(kind, count):
    """What is to be told where there are too few of the kind, and else None."""
    if count < LEAST[kind]:
        return f"{count} {kind} stand here, and {LEAST[kind]} are to: see checks/least.py"
    return None
