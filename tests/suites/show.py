"""What `show` puts out of an array, and that it changes nothing."""
from fixture import *


class Shown(Case):
    """The devices do not change."""

    def shown(self, folder, *said_of_it, says="", array=FOUR, **how):
        self.expect_in(folder, folder, "show", 0, says, array.shown(*said_of_it), **how)

    def not_shown(self, folder, status, says, **how):
        self.expect_in(folder, folder, "show", status, says, **how)


class Arrays(Shown):
    def test_new_arrays(self):
        self.shown(FOUR.fresh, 1, *FOUR.slots(), case="four")
        self.shown(EIGHT.fresh, 1, *EIGHT.slots(), array=EIGHT, case="eight")

    def test_the_input_is_not_taken(self):
        self.shown(FOUR.fresh, 1, *FOUR.slots(), input=CLOSED, case="a closed input")
        self.shown(FOUR.fresh, 1, *FOUR.slots(), input=STRIPE, left=4096, case="an input that stays")

    def test_outputs_that_fail(self):
        self.not_shown(FOUR.fresh, 6, OUTPUT_FULL, out=FULL, case="a full output")
        self.not_shown(FOUR.fresh, 6, OUTPUT_CLOSED, out=CLOSED, case="a closed output")

    def test_no_array(self):
        self.not_shown(FOUR.blank, 7, "no array", case="blank devices")
        self.expect("show", 7, [NOWHERE, "no array"], at="nowhere", case="a folder that is not there")

    def test_empty_slots(self):
        thin = self.folder("thin", FOUR.fresh)
        image(thin, 0).unlink()
        self.shown(thin, 1, *FOUR.slots(slot0="live 1 gone"), case="one")
        self.not_shown(two_left(), 9, [*FOUR.left(1, [0, 1]), "too few devices: 0 gone, 1 gone"], case="two")
        self.not_shown(one_left(), 7, [*FOUR.left(1, [0, 1, 2]), "no array"], case="three")

    def test_two_arrays(self):
        # Five devices of one array and three of another one with the same geometry.
        self.not_shown(two_arrays(), 8, f"two arrays: {EIGHT.identity} {OTHER.identity}", case="five and three")
        mixed = self.folder("mixed", EIGHT.fresh)
        for slot in 0, 1, 2:
            copy(image(OTHER.fresh, slot), image(mixed, slot))
        self.not_shown(mixed, 8, f"two arrays: {OTHER.identity} {EIGHT.identity}", case="the other one first")
        copy(image(EIGHT.fresh, 2), image(mixed, 2))
        slots = EIGHT.slots(slot0="live 1 other array", slot1="live 1 other array")
        self.shown(mixed, 1, *slots, array=EIGHT, case="two devices of another array")


class Devices(Shown):
    """Slot 2 of four has the device of another slot or array, or a damaged one."""

    def slot_2(self, reason, says=""):
        self.shown(self.changed, 1, *FOUR.slots(slot2=f"live 1{reason}"), says=says)

    def setUp(self):
        super().setUp()
        self.changed = self.folder("changed", FOUR.fresh)
        self.device = image(self.changed, 2)

    def damage(self, *offsets):
        for at in offsets:
            self.assertNotEqual(0, self.device.read_bytes()[at])
            set_byte(self.device, at, 0)

    def test_a_superblock_of_another_slot(self):
        copy(image(FOUR.fresh, 1), self.device)
        self.slot_2(" other slot")

    def test_one_superblock_place_torn(self):
        self.damage(543)
        self.slot_2("")

    def test_both_superblock_places_torn(self):
        self.damage(543, 1087)
        self.slot_2(" no superblock")

    def test_a_blank_device(self):
        copy(image(FOUR.blank, 2), self.device)
        self.slot_2(" no superblock")

    def test_a_device_of_another_array(self):
        copy(image(OTHER.fresh, 2), self.device)
        self.slot_2(" other array")

    def test_a_folder_as_a_device(self):
        self.device.unlink()
        self.device.mkdir()
        self.slot_2(" gone", says="dev02.img: no file and no block device")


class Versions(Shown):
    """Version 3 of the superblock is of large geometries alone, and versions 1 and 2 are of the others. Anything else is no superblock.

    The devices have two sectors here: `show` reads no others."""

    def marked(self, name, array):
        return array.put_superblocks(blank(self.folder(name), array.n, 2))

    def test_each_version(self):
        # The geometries are on both sides of each part of limit 8: stripes, and cells.
        for n, r, stripes, versions in (
            (4, 2, 3, "12"),
            (4, 2, 65536, "12"),
            (4, 2, 65537, "3"),
            (32, 32, 4096, "12"),
            (32, 32, 4097, "3"),
            (4, 1, 4294967288, "3"),
        ):
            array = Array(4, n, 1, r, [1], stripes)
            for version in "1234":
                case = f"version {version}, {n} devices, {stripes} stripes"
                folder = self.marked(case, array)
                patch(image(folder, 2), f"0,1 7=3{version}")
                slot_2 = "live 1" if version in versions else "live 1 no superblock"
                self.shown(folder, 1, *array.slots(slot2=slot_2), array=array, case=case)

    def test_large_arrays_by_hand(self):
        for array, changes in (
            (Array(4, 4, 1, 2, [1], 65537), "60=00010001"),
            (Array(4, 4, 1, 1, [1], 4294967288), "26=01 60=FFFFFFF8"),
        ):
            changed = patch(self.folder(f"{array.stripes}", FOUR.fresh), f"0,1 7=33 {changes}")
            self.shown(changed, 1, *array.slots(), array=array, case=f"{array.stripes} stripes")

    def test_more_stripes_than_there_may_be(self):
        changed = patch(self.folder("changed", FOUR.fresh), "0,1 7=33 26=01 60=FFFFFFF9")
        self.not_shown(changed, 7, "no array")

    def test_no_slot_with_a_right_version(self):
        self.not_shown(patch(self.folder("small", FOUR.fresh), "0,1 7=33"), 7, "no array", case="3 of a small array")
        self.not_shown(patch(self.marked("large", LARGE), "0,1 7=32"), 7, "no array", case="2 of a large array")


class Epochs(Shown):
    """Epoch 2 has slot 2 down, with another device or rebuilding; then a label, a frozen mark, and version 1 of the superblock."""

    def second(self, changes, slot_2, *rest, old=False):
        """The second superblock of each device is of epoch 2 with these changes; if `old`, the device of slot 2 is of epoch 1."""
        changed = patch(self.folder("changed", FOUR.fresh), f"1 87=02 95=02 {changes}")
        if old:
            copy(image(FOUR.fresh, 2), image(changed, 2))
        self.shown(changed, 2, *rest, *FOUR.slots(slot2=slot_2))

    def test_a_slot_that_is_down(self):
        self.second("114=030000000000000000", "down", old=True)

    def test_an_older_device(self):
        self.second("114=010000000000000002", "live 2 other joined", old=True)

    def test_a_slot_that_is_rebuilt(self):
        self.second("114=020000000000000001", "rebuilding 1", old=True)

    def test_a_slot_that_was_to_be_rebuilt(self):
        self.second("114=020000000000000002", "rebuilding 2 other joined", old=True)

    def test_a_label(self):
        self.second("385=077368656C662037", "live 1", "label shelf 7")

    def test_a_label_and_a_frozen_mark(self):
        self.second("384=01077368656C662037", "live 1", "label shelf 7", "frozen")

    def test_a_frozen_mark(self):
        self.second("384=01", "live 1", "frozen")

    def test_superblocks_of_version_1(self):
        changed = patch(self.folder("changed", FOUR.fresh), "0,1 7=31")
        self.shown(changed, 1, *FOUR.slots())
