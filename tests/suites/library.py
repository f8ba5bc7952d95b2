"""The library for C programs: each call against the equations of the code, in C with sanitizers, and the two examples."""
import itertools
import random
import re
import shlex
import struct

from fixture import *

SLOW = True
NEEDS_PROGRAM = False

HEADER, DRIVER, EXAMPLES = TOP / "include" / "stair.h", TOP / "tests" / "library" / "driver.c", TOP / "examples"
OK, SIZE, METHOD, LOST, BROKEN = 0, 9, 10, 11, 12
METHODS = 4
UNTOUCHED = 77  # what the driver hands over where a number is to be told
WRAPPED = [f"-Wl,--wrap={name}" for name in ("malloc", "realloc", "free")]
KINDS = {"plain": ["-O2"], "sanitizers": ["-O1", "-g", "-fsanitize=address,undefined", "-fno-sanitize-recover=all"]}
GEOMETRIES = tool("factors").GEOMETRIES

Answer = collections.namedtuple("Answer", "status first second chunks refused")  # the last: how often memory was refused


@functools.lru_cache(maxsize=None)
def installed():
    """Returns the folder below which the library is installed: that of STAIR_PREFIX, or one that it is built for."""
    named = os.environ.get("STAIR_PREFIX")
    if named:
        return pathlib.Path(named).resolve()
    prefix = shared() / "library"
    subprocess.run([TOP / "scripts" / "library", prefix], check=True)
    return prefix


@functools.lru_cache(maxsize=None)
def flags():
    """Returns the compiler's words for the library, as pkg-config has them."""
    text = (installed() / "lib" / "pkgconfig" / "stair.pc").read_text()
    found = dict(re.findall(r"^(\w+)[=:] ?(.*)$", text, re.MULTILINE))
    fill = lambda words: shlex.split(words.replace("${prefix}", found["prefix"]))
    return fill(found["Cflags"]), fill(found["Libs"])


def compilers():
    return [name for name in ("cc", "clang") if shutil.which(name)]


@functools.lru_cache(maxsize=None)
def compiled(compiler, source, *words):
    """Returns the path of a program that is made of a C file and the library."""
    path = shared() / f"{source.stem}-{compiler}-{abs(hash(words))}"
    of_header, of_library = flags()
    strict = ["-std=c11", "-Wall", "-Wextra", "-Werror", "-pedantic"]
    ahead = [it for it in words if not it.startswith("-l")]
    behind = [it for it in words if it.startswith("-l")]
    subprocess.run([compiler, *strict, *ahead, *of_header, "-o", path, source, *of_library, *behind], check=True)
    return path


def drivers():
    """Yields a name and the path for each way to compile the driver."""
    for compiler, kind in itertools.product(compilers(), KINDS):
        yield f"{compiler}, {kind}", compiled(compiler, DRIVER, *KINDS[kind], "-pthread", *WRAPPED)


def place(geometry, stripes, row, chunk, stripe):
    """Returns the number of a sector in the order of memory."""
    return (chunk * stripes + stripe) * geometry[2] + row


def chunks_of(geometry, coded):
    """Returns the chunks of these stripes, of which each is a list of cells, row by row."""
    n, _, r = geometry[:3]
    return b"".join(stripe[row * n + chunk] for chunk in range(n) for stripe in coded for row in range(r))


def random_stripes(geometry, count, seed):
    """Returns the cells of so many codewords, by the equations of the code."""
    n, m, r, *e = geometry
    draw = random.Random(seed)
    blocks = r * (n - m) - sum(e)
    return [tool("factors").encoded(n, m, r, tuple(e), [draw.randbytes(512) for _ in range(blocks)]) for _ in range(count)]


def parities(geometry):
    """Returns the numbers of the cells, row by row, that hold a parity."""
    n, m, r, *e = geometry
    blocks, _ = tool("factors").dependencies(n, m, r, tuple(e))
    return sorted(set(range(n * r)) - set(blocks))


def worst_loss(geometry, draw):
    """Returns the most cells that a stripe may lose: m chunks, and of further ones as many as the coverage vector has."""
    n, m, r, *e = geometry
    chunks = draw.sample(range(n), m + len(e))
    lost = [(row, chunk) for chunk in chunks[:m] for row in range(r)]
    return lost + [(row, chunk) for chunk, count in zip(chunks[m:], e) for row in draw.sample(range(r), count)]


class Compiled(Case):
    def setUp(self):
        super().setUp()
        self.needs("ar", "cc")


class Library(Compiled):
    def call(self, path, call, number, stripes, geometry, input=b""):
        ended = self.run_command([str(path), call, str(number), str(stripes), *map(str, geometry)], input)
        self.assertEqual(0, ended.status, ended.err[:2000].decode(errors="replace"))
        number_at = lambda at: int.from_bytes(ended.out[at : at + 8], "little")
        return Answer(ended.out[0], number_at(1), number_at(9), ended.out[17:], int(ended.err))

    def each(self, geometries=GEOMETRIES):
        for (name, path), geometry in itertools.product(drivers(), geometries):
            yield f"{name}, {' '.join(map(str, geometry))}", path, geometry

    def test_encode(self):
        for name, path, geometry in self.each():
            coded = random_stripes(geometry, 2, name)
            wanted = chunks_of(geometry, coded)
            spoiled = [[b"\xa5" * 512 if cell in parities(geometry) else data for cell, data in enumerate(stripe)] for stripe in coded]
            for method in range(METHODS):
                with self.subTest(f"{name}, method {method}"):
                    found = self.call(path, "encode", method, 2, geometry, chunks_of(geometry, spoiled))
                    self.assertEqual((OK, True), (found.status, found.chunks == wanted))

    def test_restore(self):
        for name, path, geometry in self.each():
            draw = random.Random(name)
            coded = random_stripes(geometry, 3, name)
            wanted = chunks_of(geometry, coded)
            erased, spoiled = bytearray(len(wanted) // 512), bytearray(wanted)
            for stripe in range(3):
                for row, chunk in worst_loss(geometry, draw):
                    at = place(geometry, 3, row, chunk, stripe)
                    erased[at] = draw.randrange(1, 256)
                    spoiled[at * 512 : at * 512 + 512] = draw.randbytes(512)
            with self.subTest(name):
                found = self.call(path, "restore", len(erased), 3, geometry, bytes(erased) + bytes(spoiled))
                self.assertEqual((OK, True), (found.status, found.chunks == wanted))
            # All of a row is too much for any code.
            for chunk in range(geometry[0]):
                for row in range(geometry[2]):
                    erased[place(geometry, 3, row, chunk, 2)] = 1
            with self.subTest(f"{name}, too much is erased"):
                found = self.call(path, "restore", len(erased), 3, geometry, bytes(erased) + bytes(spoiled))
                self.assertEqual((LOST, True), (found.status, found.chunks == spoiled))

    def test_restore_of_each_map(self):
        # The verdicts were worked out elsewhere from the definition: a bit for each map of the cells of 4 1 2 1, row by row.
        geometry = (4, 1, 2, 1)
        verdicts = "fee8 fee8 fee8 e880 fee8 e880 e880 0000 fee8 e880 e880 0000 e880 0000 0000 0000".split()
        (stripe,) = random_stripes(geometry, 1, "maps")
        whole = chunks_of(geometry, [stripe])
        name, path = next(drivers())
        for word, verdict in enumerate(verdicts):
            with self.subTest(f"maps {16 * word} to {16 * word + 15}"):
                for bit in range(16):
                    erased = bytearray(8)
                    for cell in range(8):
                        erased[place(geometry, 1, cell // 4, cell % 4, 0)] = (16 * word + bit) >> cell & 1
                    found = self.call(path, "restore", 8, 1, geometry, bytes(erased) + whole)
                    self.assertEqual(int(verdict, 16) >> (15 - bit) & 1, found.status == OK)
                    self.assertEqual(whole, found.chunks)

    def test_check(self):
        for name, path, geometry in self.each():
            whole = chunks_of(geometry, random_stripes(geometry, 3, name))
            with self.subTest(name):
                self.assertEqual((OK, UNTOUCHED), self.call(path, "check", 0, 3, geometry, whole)[:2])
            for stripe in range(3):
                broken = bytearray(whole)
                for later in range(stripe, 3):
                    at = place(geometry, 3, later % geometry[2], later % geometry[0], later)
                    broken[at * 512 + 37 * later] ^= 1
                with self.subTest(f"{name}, from stripe {stripe} on"):
                    self.assertEqual((BROKEN, stripe), self.call(path, "check", 0, 3, geometry, bytes(broken))[:2])

    def test_place(self):
        for name, path, geometry in self.each():
            n, m, r, *e = geometry
            blocks, _ = tool("factors").dependencies(n, m, r, tuple(e))
            with self.subTest(name):
                for stripe, block in itertools.product((0, 6), {0, len(blocks) // 2, len(blocks) - 1}):
                    wanted = (OK, blocks[block] % n, stripe * r + blocks[block] // n)
                    self.assertEqual(wanted, self.call(path, "place", stripe * len(blocks) + block, 7, geometry)[:3])
                for block in (7 * len(blocks), 2**32, 2**64 - 1):
                    self.assertEqual((SIZE, UNTOUCHED, UNTOUCHED), self.call(path, "place", block, 7, geometry)[:3])
                for stripes in (2**32 // r, 2**64 - 1):
                    self.assertEqual((8, UNTOUCHED, UNTOUCHED), self.call(path, "place", 0, stripes, geometry)[:3])

    def test_cost(self):
        # The multiply-adds of standard encoding are those that the equations ask for; the others by their formulas (Li and Lee).
        for name, path, geometry in self.each():
            n, m, r, *e = geometry
            costs, s = tool("factors").costs(*geometry), sum(e)
            up = (n - m) * (m * r + s) + r * (n - m) * e[-1]
            down = (n - m) * (m + len(e)) * r + r * s
            wanted = [r * (n - m) - s, n * r, up, down, costs.pairs, costs.least, costs.greatest]
            with self.subTest(name):
                found = self.call(path, "cost", 0, 1, geometry)
                self.assertEqual((OK, wanted), (found.status, list(struct.unpack("<7Q", found.chunks))))

    def test_memory(self):
        # Each call but `place` takes memory, and gives it back; the driver has each request fail.
        for name, path in drivers():
            with self.subTest(name):
                for call, number, size in (("encode", 3, 4096), ("restore", 8, 8 + 4096), ("check", 0, 4096), ("place", 0, 0), ("cost", 0, 0)):
                    found = self.call(path, call, number, 1, (4, 1, 2, 1), bytes(size))
                    self.assertEqual((OK, call != "place"), (found.status, found.refused > 0), call)

    def test_limits(self):
        broken = {1: [(2, 1, 2, 1), (33, 1, 2, 1), (2**64 - 1, 1, 2, 1)], 2: [(4, 0, 2, 1)], 3: [(4, 2, 2, 1), (4, 2**63, 2, 1)]}
        broken |= {4: [(4, 1, 2), (4, 1, 2, 1, 1, 1, 1)], 5: [(4, 1, 0, 1), (4, 1, 33, 1)], 6: [(4, 1, 2, 0), (4, 1, 2, 3), (4, 1, 2, 2, 1)]}
        broken |= {7: [(4, 1, 2, 2, 2, 2)]}
        for name, path in drivers():
            for limit, geometries in broken.items():
                for geometry in geometries:
                    with self.subTest(f"{name}, {geometry}"):
                        for call, number, size in (("encode", 3, 4096), ("restore", 8, 8 + 4096), ("check", 0, 4096), ("place", 0, 0), ("cost", 0, 0)):
                            self.assertEqual(limit, self.call(path, call, number, 1, geometry, bytes(size)).status, call)

    def test_sizes_and_methods(self):
        geometry, stripe = (4, 1, 2, 1), bytes(8 * 512)
        for name, path in drivers():
            with self.subTest(name):
                for size in (1, 511, 512, 4095, 4097, 6144):
                    self.assertEqual(SIZE, self.call(path, "encode", 3, 1, geometry, bytes(size)).status, size)
                    self.assertEqual(SIZE, self.call(path, "check", 0, 1, geometry, bytes(size)).status, size)
                    self.assertEqual(SIZE, self.call(path, "restore", 8, 1, geometry, bytes(8 + size)).status, size)
                for marks in (0, 7, 9, 16):
                    self.assertEqual(SIZE, self.call(path, "restore", marks, 1, geometry, bytes(marks) + stripe).status, f"{marks} marks")
                for number in (4, 2**32 - 1):
                    self.assertEqual(METHOD, self.call(path, "encode", number, 1, geometry, stripe).status, number)
                for call in ("encode", "restore", "check"):
                    self.assertEqual(OK, self.call(path, call, 0, 0, geometry).status, "no stripe")


class Archive(Compiled):
    def test_names(self):
        """The archive has the calls of the header and no others, and needs nothing but memory."""
        calls = set(re.findall(r"^uint32_t (stair_\w+)\(", HEADER.read_text(), re.MULTILINE))
        archive = installed() / "lib" / "libstair.a"
        names = subprocess.run(["nm", "-g", archive], check=True, capture_output=True, text=True).stdout
        defined = set(re.findall(r" T (\w+)$", names, re.MULTILINE))
        needed = set(re.findall(r" U (\w+)$", names, re.MULTILINE)) - set(re.findall(r" [A-TV-Z] (\w+)$", names, re.MULTILINE))
        self.assertEqual(calls, {name for name in defined if name.startswith("stair_")})
        self.assertEqual({"malloc", "realloc", "free"}, needed - {"memcpy", "memmove", "memset", "memcmp", "abort"})

    def test_header_in_other_languages(self):
        for compiler, language, standard in (("cc", "c", "c99"), ("c++", "c++", "c++11"), ("clang", "c", "c17"), ("clang++", "c++", "c++17")):
            if shutil.which(compiler):
                with self.subTest(f"{compiler} {standard}"):
                    words = [compiler, "-fsyntax-only", "-Wall", "-Wextra", "-Werror", "-pedantic", "-x", language, f"-std={standard}"]
                    subprocess.run([*words, "-include", HEADER, os.devnull], check=True)


class Examples(Compiled):
    def test_shelf(self):
        for compiler, kind in itertools.product(compilers(), KINDS):
            with self.subTest(f"{compiler}, {kind}"):
                ended = self.run_command([str(compiled(compiler, EXAMPLES / "shelf.c", *KINDS[kind]))])
                says = lines("64 stripes of 8 devices: two devices and four sectors of each stripe were lost, and all came back")
                self.check_ended(ended, 0, "", says)

    def test_parity(self):
        draw = random.Random(5)
        for compiler, kind in itertools.product(compilers(), KINDS):
            parity = str(compiled(compiler, EXAMPLES / "parity.c", *KINDS[kind], "-lz"))
            for size in (0, 1, 20 * 512 - 8, 20 * 512 - 7, 300_000):
                with self.subTest(f"{compiler}, {kind}, {size} bytes"):
                    folder = self.folder(f"{compiler} {kind} {size}")
                    data = draw.randbytes(size)
                    (folder / "file").write_bytes(data)
                    self.check_ended(self.run_command([parity, "split", "file"], folder=folder), 0, "", b"")
                    whole = {path.name: path.read_bytes() for path in folder.iterdir()}
                    self.assertEqual({"file", *(f"file.{j}" for j in range(8))}, set(whole))
                    stripes = (size + 8 + 10239) // 10240
                    self.assertEqual({stripes * 4 * 516}, {len(whole[f"file.{j}"]) for j in range(8)})
                    lost = draw.sample(range(8), 5)
                    for j in lost[:2]:
                        (folder / f"file.{j}").unlink()
                    for j, count in zip(lost[2:], (1, 1, 2)):
                        for stripe in range(stripes):
                            for row in draw.sample(range(4), count):
                                flip(folder / f"file.{j}", (stripe * 4 + row) * 512 + draw.randrange(512))
                    (folder / "file").unlink()
                    self.check_ended(self.run_command([parity, "join", "file"], folder=folder), 0, "", b"")
                    self.assertEqual(whole, {path.name: path.read_bytes() for path in folder.iterdir()})
                    # Three lost shards are too many. Nothing is written then.
                    for j in lost[:3]:
                        (folder / f"file.{j}").unlink()
                    left = contents(folder)
                    self.check_ended(self.run_command([parity, "join", "file"], folder=folder), 1, "parity: file: too much is lost", b"")
                    self.assertEqual(left, contents(folder))
