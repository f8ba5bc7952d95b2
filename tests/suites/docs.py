"""The documents: what their sessions print, where their links lead, and their figures."""
import functools
import importlib.machinery
import importlib.util
import unittest.mock
import xml.etree.ElementTree

from documents import *
from fixture import *
from shell import *

README, OPERATING = TOP / "README.md", TOP / "docs" / "operating.md"
DOCUMENTS = [README, TOP / "CONTRIBUTING.md", *sorted((TOP / "docs").rglob("*.md"))]
FIGURES = TOP / "docs" / "figures"


class Readme(Documented):
    def test_sessions(self):
        self.run_sessions(README)


class Operating(Documented):
    def test_sessions(self):
        self.run_sessions(OPERATING)


class Others(Documented):
    def test_sessions(self):
        for path in DOCUMENTS:
            if path not in (README, OPERATING) and sessions(path.read_text()):
                self.run_sessions(path)


class Links(Case):
    def test_links(self):
        for path in DOCUMENTS:
            with self.subTest(path.name):
                self.assertEqual([], broken_links(path, TOP))


@functools.lru_cache(maxsize=None)
def drawing():
    """Returns the script that draws the figures as a module."""
    loader = importlib.machinery.SourceFileLoader("drawing", str(FIGURES / "draw"))
    module = importlib.util.module_from_spec(importlib.util.spec_from_loader(loader.name, loader))
    loader.exec_module(module)
    return module


class Files(Case):
    def test_figures_are_those_that_are_drawn(self):
        self.assertEqual(0, self.run_command([str(FIGURES / "draw"), str(self.room)]).status)
        drawn = {path.name: path.read_text() for path in self.room.iterdir()}
        self.assertEqual(drawn, {path.name: path.read_text() for path in FIGURES.glob("*.svg")})

    def test_figures_fit_a_page_and_are_described(self):
        for path in FIGURES.glob("*.svg"):
            with self.subTest(path.name):
                figure = xml.etree.ElementTree.parse(path).getroot()
                described = [figure.findtext(f"{{*}}{name}") for name in ("title", "desc")]
                self.assertTrue(all(described) and int(figure.get("width")) <= 900, described)


class Stripe(Case):
    """The figure of a stripe, against tests/tools/factors and the program."""

    def setUp(self):
        super().setUp()
        self.geometry = n, m, r, e = drawing().GEOMETRY
        self.lost = drawing().lost_cells(self.geometry, drawing().FAILURES)
        self.words = " ".join(map(str, ["restore", n, m, r, *e]))
        data = filled(*range(1, r * (n - m) - sum(e) + 1))
        self.cells = tool("factors").encoded(n, m, r, e, [data[at : at + 512] for at in range(0, len(data), 512)])

    def given(self, lost):
        """Returns the input of `restore`, with EE in each lost cell."""
        places = [divmod(cell, self.geometry.n) in lost for cell in range(len(self.cells))]
        return Pipe(bytes(b".x"[it] for it in places), b"".join(filled(0xEE) if it else cell for it, cell in zip(places, self.cells)))

    def test_cells(self):
        for n, m, r, *e in tool("factors").GEOMETRIES:
            with self.subTest(f"{n} {m} {r} {e}"):
                kinds = [drawing().kind_of(drawing().Geometry(n, m, r, tuple(e)), *divmod(cell, n)) for cell in range(n * r)]
                is_parity = [tool("factors").is_parity(n, m, r, e, cell) for cell in range(n * r)]
                blocks = [kind for kind, it in zip(kinds, is_parity) if not it]
                self.assertEqual([("block", number) for number in range(len(blocks))], blocks)
                parities = [("global", l) for l in range(len(e)) for _ in range(e[l])] + [("row", k) for k in range(m)] * r
                self.assertEqual(sorted(parities), sorted(kind for kind, it in zip(kinds, is_parity) if it))

    def test_failures(self):
        self.expect(self.words, input=self.given(self.lost), puts=b"".join(self.cells))

    def test_no_further_cell_may_be_lost(self):
        n, r = self.geometry.n, self.geometry.r
        for cell in sorted({(i, j) for i in range(r) for j in range(n)} - self.lost):
            lost = self.lost | {cell}
            counts = " ".join(str(sum((i, j) in lost for i in range(r))) for j in range(n))
            self.expect(self.words, 10, f"lost: stripe 0 counts {counts}", input=self.given(lost), case=f"cell {cell}")
            failures = "\n".join("".join(".x"[(i, j) in lost] for j in range(n)) for i in range(r))
            self.assertRaises(ValueError, drawing().stripe_figure, self.geometry, failures)


class Write(Case):
    """The figure of a write."""

    def test_another_order_of_phases(self):
        bodies, opened, cells, closed = drawing().PHASES
        for order in (opened, bodies, cells, closed), (bodies, cells, opened, closed), (bodies, opened, closed, cells):
            with self.subTest(" ".join(it.name for it in order)), unittest.mock.patch.object(drawing(), "PHASES", order):
                self.assertRaises(ValueError, lambda: [drawing().after_crash(it) for it in order])
