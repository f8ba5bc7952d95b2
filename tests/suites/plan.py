"""What a code costs, by `plan`."""
from costs import *
from fixture import *

# By hand, for 4 1 2 1.
WANTED = lines("blocks 5 of 8", "steps up 15 down 14 standard 13 fewest standard", "penalty least 2 greatest 3 sum 13")


class Plan(Case):
    def test_a_plan(self):
        self.expect("plan 4 1 2 1", puts=WANTED, input=STRIPE, left=4096, case="a plan")

    def test_a_folder_that_is_not_there(self):
        # The input is closed.
        self.expect("plan 4 1 2 1", puts=WANTED, input=CLOSED, at="nowhere")

    def test_an_array_in_use(self):
        self.expect_in(FOUR.fresh, FOUR.fresh, "plan 4 1 2 1", puts=WANTED, wrap=["flock", "."])

    def test_a_full_output(self):
        self.expect("plan 4 1 2 1", 6, OUTPUT_FULL, out=FULL)

    def test_known_geometries(self):
        for geometry in tool("factors").GEOMETRIES:
            words = " ".join(map(str, geometry))
            self.expect(f"plan {words}", puts=planned(*geometry), case=words)
