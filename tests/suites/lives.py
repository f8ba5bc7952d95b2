"""Random lives of arrays: devices that are taken out and reinserted, and volumes that are made and dropped in random orders."""
import random

from fixture import *
from rounds import *

SLOW = True


class Lives(Case):
    """Each life is a case, by tests/tools/returns and tests/tools/volumes."""

    ROUNDS = rounds(500)

    def lives(self, name):
        """Runs lives of a tool, and prints how many commands they had."""
        seed, commands, place = random.randrange(10**6), 0, in_memory(self)
        for number in range(seed, seed + self.ROUNDS):
            with self.subTest(f"{name} by seed {number}"):
                commands += tool(name).live(program(), str(place / f"life{number}"), number)
        print(f"{self.ROUNDS} lives of {name} by seeds from {seed} on: {commands} commands")


class Devices(Lives):
    def test_devices_that_are_reinserted(self):
        self.lives("returns")


class Volumes(Lives):
    def test_volumes_in_random_orders(self):
        self.lives("volumes")
