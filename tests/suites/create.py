"""New arrays: the image files byte by byte, what is refused, and the geometry text."""
import os

from fixture import *

# What standard error has if a geometry text breaks limit 3.
LIMIT_3 = ["geometry: n > 2m is needed: n = 4, m = 2", "geometry: limit 3"]


def limit_8(stripes, n=4, r=1, large=False):
    """Returns what standard error has if a geometry text has too many stripes, with the key `large` and without it."""
    asked = "stripes >= 1 and 3 + n*r + r*stripes <= 4294967295" if large else "1 <= stripes <= 65536 and n*r*stripes <= 4194304"
    return [
        f"geometry: {asked} are needed: n = {n}, r = {r}, stripes = {stripes}",
        "geometry: with `large = true` limit 8 is 3 + n*r + r*stripes <= 4294967295",
        "geometry: limit 8",
    ]


def of_stripes(stripes, n=4, m=1, r=1, e=(1,)):
    """Returns a geometry text without the key `large`."""
    return Array(4, n, m, r, list(e), stripes).text.replace(LARGE_KEY, b"")


class Create(Case):
    def test_new_arrays(self):
        # The expected image files are those of tests/tools/fresh, which follows the tables of docs/on-disk.md.
        for case, array in (("four", FOUR), ("eight", EIGHT), ("32", MANY)):
            self.expect_in(array.blank, array.fresh, "create", puts=array.created, input=array.text, case=f"an array of {case}")

    def test_larger_devices_that_hold_anything(self):
        # What follows the array's sectors is kept. FOLDER is an absolute path, and the id has capital digits.
        letters = Array(0xABCDEF, 4, 1, 2, [1], 3)
        used, laid_out = self.folder("used"), self.folder("laid out")
        for slot in range(4):
            noise = os.urandom(SEALED * (17 + slot) + 100 * slot)
            image(used, slot).write_bytes(noise)
            image(laid_out, slot).write_bytes(image(letters.fresh, slot).read_bytes() + noise[SEALED * 17 :])
        text = FOUR.text.replace(b"000004", b"ABCDEF")
        created = lines("created 00000000000000000000000000abcdef blocks 15")
        self.expect_in(used, laid_out, "create", puts=created, input=Pipe(text), at=str)

    def test_a_small_array_whose_text_has_the_key_large(self):
        # Its superblocks have version 2, as without the key.
        for case, text in (("last", FOUR.text + LARGE_KEY), ("first", LARGE_KEY + FOUR.text)):
            self.expect_in(FOUR.blank, FOUR.fresh, "create", puts=FOUR.created, input=text, case=f"the key {case}")


class LargeArray(Case):
    """An array with a stripe more than it may have without the key `large`."""

    def test_without_the_key(self):
        self.expect_in(LARGE.blank, LARGE.blank, "create", 3, limit_8(LARGE.stripes, 3), input=LARGE.text.replace(LARGE_KEY, b""))

    def test_with_the_key(self):
        self.expect_in(LARGE.blank, LARGE.fresh, "create", puts=LARGE.created, input=LARGE.text)

    def test_a_device_of_a_sector_too_few(self):
        small = blank(self.folder("small"), 3, LARGE.sectors)
        os.truncate(image(small, 2), SEALED * LARGE.sectors - 1)
        length = f"dev02.img: {SEALED * 65543 - 1} bytes, and the array needs {SEALED * 65543}"
        says = [length, "small device: slot 2 has 65542 of 65543 sectors"]
        self.expect_in(small, small, "create", 13, says, input=LARGE.text)

    def test_an_array_again(self):
        for case, text in (("the same one", LARGE.text), ("a small one", of_stripes(3, n=3))):
            self.expect_in(LARGE.fresh, LARGE.fresh, "create", 12, "array already: slot 0", input=text, case=case)


class Refused(Case):
    def refused(self, folder, status, says, array=FOUR, **how):
        self.expect_in(folder, folder, "create", status, says, input=array.text, **how)

    def test_an_array_again(self):
        self.refused(FOUR.fresh, 12, "array already: slot 0")

    def test_a_device_of_a_sector_too_few(self):
        small = self.folder("small", EIGHT.blank)
        os.truncate(image(small, 5), SEALED * 291 - 1)
        says = [f"dev05.img: {SEALED * 291 - 1} bytes, and the array needs {SEALED * 291}", "small device: slot 5 has 290 of 291 sectors"]
        self.refused(small, 13, says, EIGHT)

    def test_devices_that_are_not_there(self):
        gone = self.folder("gone", FOUR.blank)
        image(gone, 1).unlink()
        self.refused(gone, 15, "gone: slot 1", case="a device that is not there")
        image(gone, 1).mkdir()
        self.refused(gone, 15, ["dev01.img: no file and no block device", "gone: slot 1"], case="a folder as a device")
        self.expect("create", 15, [NOWHERE, "gone: slot 0"], at="nowhere", input=FOUR.text, case="a folder of devices that is not there")


class OtherArrays(Case):
    """A superblock on any device, in either place, belongs to an array. One with a wrong tag does not count, and its device is not
    changed."""

    def with_slot_5(self, *tags):
        """Returns four blank devices, and in slot 5 a device of an array of eight in which these bytes of tags are damaged."""
        folder = self.folder("before", FOUR.blank)
        copy(image(EIGHT.fresh, 5), image(folder, 5))
        for at in tags:
            self.damage(image(folder, 5), at)
        return folder

    def damage(self, path, at):
        self.assertNotEqual(0, path.read_bytes()[at])
        set_byte(path, at, 0)

    def refused(self, folder, slot):
        self.expect_in(folder, folder, "create", 12, f"array already: slot {slot}", input=FOUR.text)

    def test_another_array_on_a_further_device(self):
        self.refused(self.with_slot_5(), 5)

    def test_another_array_in_its_second_place(self):
        self.refused(self.with_slot_5(543), 5)

    def test_superblocks_that_are_damaged(self):
        before = self.with_slot_5(543, 1087)
        after = self.folder("after", FOUR.fresh)
        copy(image(before, 5), image(after, 5))
        self.expect_in(before, after, "create", puts=FOUR.created, input=FOUR.text)

    def test_an_array_in_the_second_place(self):
        second = self.folder("second", FOUR.blank)
        copy(image(FOUR.fresh, 2), image(second, 2))
        self.damage(image(second, 2), 0)
        self.refused(second, 2)


class Text(Case):
    """A fault of the geometry text is reported before any device is opened."""

    def refused(self, text, status, says, **how):
        says = [NOWHERE, *([says] if isinstance(says, str) else says)]
        self.expect("create", status, says, at="nowhere", input=Pipe(text), **how)

    def nested(self, depth):
        return FOUR.text + b"x = " + b"[" * depth + b"]" * depth + b"\n"

    def test_keys(self):
        self.refused(FOUR.text.replace(b"m = 1\n", b""), 3, "geometry: key m", case="a key that is missing")
        self.refused(FOUR.text.replace(b"m = 1\n", b"m = 2\n"), 3, LIMIT_3, case="a broken limit")
        self.refused(b"", 3, "geometry: key n", case="no text")

    def test_no_toml(self):
        self.refused(b"n = 4 m = 1\n", 3, "geometry: not TOML", case="two keys in a line")
        self.refused(FOUR.text + b"x = 1e999\n", 3, "geometry: not TOML", case="a number past the greatest float")

    def test_nested_arrays(self):
        self.refused(self.nested(81), 3, "geometry: not TOML", case="too deep")
        self.refused(self.nested(80), 15, "gone: slot 0", case="as deep as they may be")

    def test_the_key_large(self):
        text = of_stripes(65537)
        self.refused(text, 3, limit_8(65537), case="without the key")
        self.refused(text + LARGE_KEY, 15, "gone: slot 0", case="with it")
        for value in "false", "1", '"true"', "[true]", "{ large = true }":
            self.refused(text + lines(f"large = {value}"), 3, limit_8(65537), case=f"large = {value}")
        for key in "Large = true", "[x]\nlarge = true":
            self.refused(text + lines(key), 3, limit_8(65537), case=f"another key: {key!r}")

    def test_limit_8_without_the_key(self):
        for case, most, shape in (("of all", 65536, {}), ("of many cells", 4096, {"n": 32, "r": 32})):
            self.refused(of_stripes(most, **shape), 15, "gone: slot 0", case=f"the most stripes {case}")
            self.refused(of_stripes(most + 1, **shape), 3, limit_8(most + 1, **shape), case=f"a stripe more {case}")
            self.refused(of_stripes(most + 1, **shape) + LARGE_KEY, 15, "gone: slot 0", case=f"a stripe more {case}, with the key")

    def test_limit_8_with_the_key(self):
        # With 32 rows the sectors of 2^59 and of 2^63 - 1 stripes are more than 64 bits can count.
        for n, r, most in (4, 1, 4294967288), (32, 32, 134217695):
            self.refused(of_stripes(most, n=n, r=r) + LARGE_KEY, 15, "gone: slot 0", case=f"the most stripes of {r} rows")
            for stripes in most + 1, 2**32, 2**59, 2**63 - 1, 0:
                says = limit_8(stripes, n, r, large=True)
                self.refused(of_stripes(stripes, n=n, r=r) + LARGE_KEY, 3, says, case=f"{stripes} stripes of {r} rows")

    def test_the_key_large_beside_a_fault(self):
        def large(old, new):
            self.assertIn(old, text)
            return text.replace(old, new) + LARGE_KEY

        text = of_stripes(65537)
        self.refused(large(b"m = 1\n", b""), 3, "geometry: key m", case="a key that is missing")
        self.refused(large(b"65537", b"-1"), 3, "geometry: key stripes", case="a number below zero")
        self.refused(large(b"65537", b"9223372036854775808"), 3, "geometry: not TOML", case="a number of 64 bits without a sign")
        self.refused(large(b"000004", b"00004"), 3, "geometry: key id", case="an identity of 31 digits")
        self.refused(large(b"m = 1\n", b"m = 2\n"), 3, LIMIT_3, case="a broken limit")
        self.refused(text + LARGE_KEY + LARGE_KEY, 3, "geometry: not TOML", case="the key twice")

    def test_lengths(self):
        text = FOUR.text + b"\n" * 5000
        long = {"status": 4, "says": "input: needed 4096, took 4097"}
        self.expect_in(FOUR.blank, FOUR.fresh, "create", puts=FOUR.created, input=Pipe(text[:4096]), case="4096 bytes")
        self.expect_in(FOUR.blank, FOUR.blank, "create", **long, input=Pipe(text[:4097]), case="a byte more")
        self.expect_in(FOUR.blank, FOUR.blank, "create", **long, input=Pipe(text[:5000]), left=903, case="a longer text")
