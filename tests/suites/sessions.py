"""Random sessions of `serve`, against the model of tests/tools/nbd."""
import random

from fixture import *
from rounds import *

SLOW = True


class Sessions(Case):
    def test_sessions(self):
        # All are over one array, whose blocks and devices change. It is in memory, since they have many syncs. To hold one session
        # alone, call tests/tools/nbd with its seed.
        array = tool("nbd").Array(program(), in_memory(self))
        first = random.randrange(2**32)
        for seed in range(first, first + 20 * rounds(50)):
            with self.subTest(f"seed {seed}"):
                self.assertEqual([], array.failures_of(seed))
