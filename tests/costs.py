"""What `plan` puts out of a geometry, worked out apart from the program."""
from fixture import lines, tool


def planned(n, m, r, *e):
    """Returns what `plan` puts out. The steps of standard encoding are the pairs of a block and a parity that changes with it, by
    tests/tools/factors. The steps of the other two encoders follow by formulas."""
    costs = tool("factors").costs(n, m, r, *e)
    up = (n - m) * (m * r + sum(e)) + r * (n - m) * e[-1]
    down = (n - m) * (m + len(e)) * r + r * sum(e)
    steps = {"up": up, "down": down, "standard": costs.pairs}
    fewest = min(steps, key=steps.get)  # of several the first one
    return lines(
        f"blocks {r * (n - m) - sum(e)} of {n * r}",
        f"steps up {up} down {down} standard {costs.pairs} fewest {fewest}",
        f"penalty least {costs.least} greatest {costs.greatest} sum {costs.pairs}",
    )
