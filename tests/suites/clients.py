"""Real clients of an array as a block device: nbdinfo, nbdcopy, qemu-img, libnbd, file systems; clients and sessions that are killed."""
import contextlib
import os
import pathlib
import random
import subprocess
import tempfile
import time

from served import *

SLOW = True


class Tools(Served):
    """Clients at a socket."""

    def setUp(self):
        super().setUp()
        self.needs("socat")
        self.data = noise("a file", self.size)
        self.file = self.room / "file"
        self.file.write_bytes(self.data)
        self.disk = f"nbd:unix:{self.socket}"

    def test_nbdinfo_and_nbdcopy(self):
        self.needs("nbdinfo", "nbdcopy")
        with self.listening():
            with self.judged("nbdinfo shows the size"):
                self.assertEqual(lines(str(self.size)), self.client("nbdinfo", "--size", self.uri))
                self.assertRegex(self.client("nbdinfo", self.uri), rb"\bexport-size: %d\b" % self.size)
            with self.judged("nbdcopy of a file in"):
                self.client("nbdcopy", "--flush", self.file, self.uri)
                self.holds(self.data)
            with self.judged("nbdcopy of it out"):
                self.same(self.data, self.client("nbdcopy", self.uri, "-"))

    def test_nbdcopy_out_of_a_degraded_array(self):
        self.needs("nbdcopy")
        self.runs(f"write 0 {self.array.blocks}", puts=lines(f"wrote {self.array.blocks} blocks"), given=self.data)
        port = free_port()
        for of, lost, says in ("all devices", None, ""), ("a lost device", 3, "fenced 3"), ("two lost devices", 6, "fenced 6"):
            if lost is not None:
                image(self.work, lost).unlink()
            with self.listening(), self.judged(f"nbdcopy over a Unix socket, {of}", says):
                self.same(self.data, self.client("nbdcopy", self.uri, "-"))
            with self.listening(port=port), self.judged(f"nbdcopy over TCP, {of}"):
                self.same(self.data, self.client("nbdcopy", f"nbd://127.0.0.1:{port}", "-"))

    def test_qemu_img(self):
        self.needs("qemu-img")
        compare = ["qemu-img", "compare", "-f", "raw", "-F", "raw"]
        other = self.room / "other"
        other.write_bytes(noise("another file", self.size))
        with self.listening():
            with self.judged("qemu-img converts a file into it"):
                self.client("qemu-img", "convert", "-n", "-f", "raw", "-O", "raw", self.file, self.disk)
                self.holds(self.data)
            with self.judged("qemu-img compares it"):
                self.client(*compare, self.file, self.disk)
            with self.judged("qemu-img finds another file"):
                self.client(*compare, other, self.disk, status=1)


class Requests(Served):
    """Requests at odd places, against a model."""

    ROUNDS = rounds(2000)

    def test_random_requests(self):
        client = self.needs_python()
        seed = random.randrange(10**6)
        with self.judged(f"random requests by seed {seed}"):
            self.client(*client, "requests", self.serve, self.ROUNDS, seed)


class FileSystem(Served):
    """A file system is made and filled. It is checked and read again without a device, with another one in its place, and without two
    other ones."""

    def setUp(self):
        super().setUp()
        self.needs("mke2fs", "e2fsck", "debugfs")
        self.kept = self.room / "kept"
        self.kept.write_bytes(noise("kept", 3_000_000))

    def make(self, place):
        self.client("mke2fs", "-q", "-F", "-t", "ext4", place)
        self.client("debugfs", "-w", "-R", f"write {self.kept} kept", place)
        self.check(place)

    def check(self, place):
        """The file system at this place has no faults, and its file is as it was."""
        self.client("e2fsck", "-fn", place)
        self.same(self.kept.read_bytes(), self.client("debugfs", "-R", "cat /kept", place))

    def ages(self, check):
        """The file system in the array passes the check while devices come and go."""
        image(self.work, 3).unlink()
        with self.judged("a file system and a lost device", "fenced 3"):
            check()
        with self.judged("a device in its place"):
            resize(image(self.work, 3), self.array.sectors)
            self.runs("replace 3", ["admitted 3", "promoted 3"], b"replaced 3\n")
        with self.judged("a file system over it"):
            check()
        for slot in 0, 6:
            image(self.work, slot).unlink()
        with self.judged("a file system and two other lost devices", ["fenced 0", "fenced 6"]):
            check()


class Copied(FileSystem):
    def test_a_file_system_that_is_copied(self):
        self.needs("qemu-img", "nbdcopy", "socat")
        with self.listening():
            with self.judged("a file system that is copied"):
                self.copy_in()
                self.check_copy()
            self.ages(self.check_copy)

    def copy_in(self):
        made = self.room / "made"
        with open(made, "wb") as file:
            file.truncate(self.size)
        self.make(made)
        self.client("qemu-img", "convert", "-n", "-f", "raw", "-O", "raw", made, f"nbd:unix:{self.socket}")

    def check_copy(self):
        self.client("nbdcopy", self.uri, self.room / "copy")
        self.check(self.room / "copy")


class Mounted(FileSystem):
    """The file system is in the array itself, which is mounted as a file."""

    def test_a_file_system_in_place(self):
        self.needs("nbdfuse", "fusermount3")
        self.needs_fuse()
        with self.judged("a file system that is made in place"), self.mounted() as disk:
            self.make(disk)
        self.ages(self.check_mounted)

    def check_mounted(self):
        with self.mounted() as disk:
            self.check(disk)

    def start(self):
        """Starts to mount the array as a file. Returns the process and the file, or None where it is not mounted."""
        mount = self.room / "mount"
        mount.mkdir(exist_ok=True)
        with open(self.room / "mounting", "wb") as log:
            process = subprocess.Popen(["nbdfuse", mount / "disk", "--command", self.serve], stderr=log)
        until(lambda: process.poll() is not None or os.path.ismount(mount))
        return process, mount / "disk" if process.poll() is None else None

    def end(self, process):
        subprocess.run(["fusermount3", "-u", self.room / "mount"], check=True)
        self.assertEqual(0, process.wait(CLIENT_LIMIT), "nbdfuse")

    @contextlib.contextmanager
    def mounted(self):
        """Mounts the array as a file, and yields the file."""
        process, disk = self.start()
        self.assertIsNotNone(disk, (self.room / "mounting").read_text())
        try:
            yield disk
        finally:
            self.end(process)

    def needs_fuse(self):
        """Skips the case if this process may not mount a file."""
        process, disk = self.start()
        if disk is not None:
            self.end(process)
        elif "fuse_mount: " in (self.room / "mounting").read_text():
            self.skipTest("needs FUSE, and to be allowed to mount (package fuse3)")


class Leaving(Served):
    """Clients that leave in the middle of their WRITEs, and sessions that are killed there. The old blocks are in the array, and new ones
    are copied into it by requests of 32 KiB. Of a client with its own session each request is all old or all new. So is what one of them
    writes of a stripe where a session is killed: socat kills one whose client left."""

    ROUNDS = rounds(50)
    stripes = 64
    request, stripe = 32768, 10240  # bytes

    def setUp(self):
        super().setUp()
        self.first, self.second = noise("first", self.size), noise("second", self.size)
        self.file = self.room / "file"
        self.file.write_bytes(self.second)
        self.partly = 0

    def time_of(self, copy_file):
        """Returns how many seconds a whole copy takes."""
        begun = time.monotonic()
        with self.judged("a client that stays"):
            copy_file()
        took = time.monotonic() - begun
        with self.subTest("what it copied"):
            self.holds(self.second)
        return took

    def leaves(self, who, whole, leave, *sizes):
        """Each round is a case: `leave` is called with a random part of the time of a whole copy, and what is left is judged."""
        for number in range(self.ROUNDS):
            after = random.uniform(0, whole)
            with self.subTest(f"a {who} that leaves, {number}, after {1e6 * after:.0f} of {1e6 * whole:.0f} microseconds"):
                count = self.array.blocks
                self.runs(f"write 0 {count}", puts=lines(f"wrote {count} blocks"), given=self.first)
                leave(after)
                self.check_pieces(sizes)
        print(f"{self.partly} of {self.ROUNDS} copies whose {who} left were done in part")

    def check_pieces(self, sizes):
        """Each piece of the array, which these sizes divide, is all old or all new. The next opening finds the same, and so does one with two
        devices less."""
        words = f"read 0 {self.array.blocks}"
        released(self.work)
        found = self.run_program(words, folder=self.work, limit=CLIENT_LIMIT).out
        self.holds(found)
        ends = sorted({self.size}.union(*(range(0, self.size, size) for size in sizes)))
        are_new = set()
        for part in map(slice, ends, ends[1:]):
            self.assertTrue(found[part] in (self.first[part], self.second[part]), f"{part} is neither old nor new")
            are_new.add(found[part] == self.second[part])
        self.partly += len(are_new) == 2
        with tempfile.TemporaryDirectory(dir=self.work.parent) as place:
            less, says = without_two(self.work, pathlib.Path(place) / "less")
            self.check_ended(self.run_program(words, folder=less, limit=CLIENT_LIMIT), 0, says, found)

    def killed(self, command, after, **how):
        """Runs a client and kills it after so many seconds."""
        client = subprocess.Popen(list(map(str, command)), stdout=subprocess.DEVNULL, stderr=subprocess.DEVNULL, **how)
        with contextlib.suppress(subprocess.TimeoutExpired):
            client.wait(after)
        client.kill()
        client.wait()


class AtASocket(Leaving):
    def setUp(self):
        super().setUp()
        self.needs("nbdcopy", "socat")
        self.copying = ["nbdcopy", f"--request-size={self.request}", self.file, self.uri]

    def time_here(self):
        with self.listening():
            return self.time_of(lambda: self.client(*self.copying))

    def test_clients(self):
        def leave(after):
            with self.listening():
                self.killed(self.copying, after)

        self.leaves("client at a socket", self.time_here(), leave, self.request, self.stripe)

    def test_sessions(self):
        def leave(after):
            with self.listening(after):
                self.killed(self.copying, CLIENT_LIMIT)

        self.leaves("session", self.time_here(), leave, self.request, self.stripe)


class WithItsOwnSession(Leaving):
    def test_clients(self):
        command = [*self.needs_python(), "copy", self.serve, self.file, self.request]
        self.runs(f"write 0 {self.array.blocks}", puts=lines(f"wrote {self.array.blocks} blocks"), given=self.first)
        whole = self.time_of(lambda: self.client(*command))

        def leave(after):
            with self.sessions() as end:
                self.killed(command, after, pass_fds=[end])

        self.leaves("client with its own session", whole, leave, self.request)
