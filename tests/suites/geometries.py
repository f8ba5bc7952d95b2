"""Plans of random geometries, whose costs tests/tools/factors works out from the equations of the code."""
import random

from costs import planned
from fixture import *
from rounds import *

SLOW = True


def geometry():
    """Returns n, m, r and the coverage vector of a random geometry within the limits."""
    while True:
        n = random.randint(3, 16)
        m, r = random.randint(1, (n - 1) // 2), random.randint(1, 8)
        e = [1 + random.randrange(3)]
        for _ in range(random.randrange(min(4, n - m))):
            e.append(e[-1] + random.randrange(3))
        if e[-1] <= r and sum(e) < r * (n - m):
            return n, m, r, e


class Plans(Case):
    ROUNDS = rounds(200)

    def test_random_geometries(self):
        for _ in range(self.ROUNDS):
            n, m, r, e = geometry()
            words = " ".join(map(str, (n, m, r, *e)))
            self.expect(f"plan {words}", puts=planned(n, m, r, *e), case=f"a plan of {words}")
