"""A file system whose device loses one write, behind Linux's own page cache. Linux writes a page back later, and a sync tells of one that
was lost: once. It holds the page for clean from then on, reads go on giving its bytes, and the next sync succeeds.

A process of its own keeps the files in memory, the medium, and speaks the protocol of /dev/fuse (Linux's include/uapi/linux/fuse.h). They
are mounted in a mount namespace of the caller's: nothing of it is left on the machine, and all of it goes when the processes end.
"""
import ctypes
import errno
import multiprocessing
import os
import select
import signal
import stat
import struct

# Of unshare(2), mount(2) and umount(2).
CLONE_NEWNS, CLONE_NEWUSER = 0x0002_0000, 0x1000_0000
MS_NOSUID, MS_NODEV, MS_REC, MS_PRIVATE, MNT_DETACH = 2, 4, 0x4000, 0x4_0000, 2
# Of the protocol: its version, how an inode's folder is numbered, and flags.
VERSION, ROOT = (7, 31), 1
WRITEBACK_CACHE, KEEP_CACHE, WRITE_CACHE, SETS_MODE, SETS_SIZE = 1 << 16, 1 << 1, 1 << 0, 1 << 0, 1 << 3
# The page that the device writes at once, how long Linux may keep what it was told of a name, and how long a device lives at most.
PAGE, KEPT_SECONDS, MOST_SECONDS = 4096, 3600, 120

LIBC = ctypes.CDLL(None, use_errno=True)


def system(result):
    """Raises the error of a call that failed."""
    if result != 0:
        raise OSError(ctypes.get_errno(), os.strerror(ctypes.get_errno()))


def enter_namespace():
    """Gives this process and what it starts mounts of their own, by the rights of root or as root of a user namespace."""
    user, group = os.getuid(), os.getgid()
    if LIBC.unshare(CLONE_NEWNS) != 0:
        system(LIBC.unshare(CLONE_NEWUSER | CLONE_NEWNS))
        for name, text in [("setgroups", "deny"), ("uid_map", f"{user} {user} 1"), ("gid_map", f"{group} {group} 1")]:
            with open(f"/proc/self/{name}", "w") as file:
                file.write(text)
    system(LIBC.mount(None, b"/", None, ctypes.c_ulong(MS_REC | MS_PRIVATE), None))


class Node:
    """A file with its bytes, or a folder with the numbers of its names."""

    def __init__(self, mode):
        self.mode, self.data, self.names = mode, bytearray(), {}


class Device:
    """The medium, and the answers to what Linux asks of it."""

    def __init__(self):
        self.nodes = {ROOT: Node(stat.S_IFDIR | 0o700)}
        self.lost_at = self.writes = 0
        self.is_cached = False
        self.calls = {
            1: self.look_up, 3: self.tell, 4: self.set, 8: self.make, 10: self.unlink, 11: self.unlink, 12: self.rename, 14: self.open,
            15: self.read, 16: self.write, 17: self.room, 26: self.begin, 27: self.open, 28: self.list,
        }
        # Flush, fsync, release, releasedir and fsyncdir have nothing to do: what was written is on the medium.
        self.calls |= dict.fromkeys([18, 20, 25, 29, 30], lambda number, body: b"")

    def begin(self, number, body):
        """Agrees on the version, and on a cache that is written back."""
        readahead, offered = struct.unpack_from("<8xII", body)
        self.is_cached = bool(offered & WRITEBACK_CACHE)
        return struct.pack("<4I2H2I2H8I", *VERSION, readahead, WRITEBACK_CACHE, 0, 0, PAGE, 1, 0, 0, *[0] * 8)

    def attributes(self, number):
        node = self.nodes[number]
        size = len(node.data)
        return struct.pack("<6Q10I", number, size, -(-size // 512), *[0] * 6, node.mode, 1, os.getuid(), os.getgid(), 0, PAGE, 0)

    def entry(self, number):
        return struct.pack("<4Q2I", number, 0, KEPT_SECONDS, KEPT_SECONDS, 0, 0) + self.attributes(number)

    def look_up(self, number, body):
        return self.entry(self.number_at(number, body))

    def number_at(self, number, name):
        """The number of a name in a folder."""
        try:
            return self.nodes[number].names[name.rstrip(b"\0")]
        except KeyError:
            raise OSError(errno.ENOENT, "no such name") from None

    def tell(self, number, body):
        return struct.pack("<QII", KEPT_SECONDS, 0, 0) + self.attributes(number)

    def set(self, number, body):
        """Cuts a file, or makes it longer. Of times nothing is kept."""
        valid, size, mode = struct.unpack_from("<I12xQ44xI", body)
        node = self.nodes[number]
        if valid & SETS_SIZE:
            node.data = node.data[:size].ljust(size, b"\0")
        if valid & SETS_MODE:
            node.mode = mode
        return self.tell(number, body)

    def make(self, number, body):
        made = max(self.nodes) + 1
        self.nodes[made] = Node(struct.unpack_from("<I", body)[0])
        self.nodes[number].names[body[16:].rstrip(b"\0")] = made
        return self.entry(made)

    def unlink(self, number, body):
        self.number_at(number, body)
        del self.nodes[number].names[body.rstrip(b"\0")]
        return b""

    def rename(self, number, body):
        folder, = struct.unpack_from("<Q", body)
        old, new, _ = body[8:].split(b"\0")
        self.nodes[folder].names[new] = self.number_at(number, old)
        del self.nodes[number].names[old]
        return b""

    def open(self, number, body):
        """Linux keeps the pages of a file between two who open it, as it does over a disk."""
        return struct.pack("<QII", 0, KEEP_CACHE, 0)

    def read(self, number, body):
        at, size = struct.unpack_from("<8xQI", body)
        return bytes(self.nodes[number].data[at : at + size])

    def write(self, number, body):
        """Writes a part of a page, or loses it where it is the one to be lost."""
        at, size, flags = struct.unpack_from("<8xQII", body)
        node = self.nodes[number]
        self.writes += flags & WRITE_CACHE
        if flags & WRITE_CACHE and self.writes == self.lost_at:
            raise OSError(errno.EIO, "lost")
        node.data = node.data.ljust(at, b"\0")
        node.data[at : at + size] = body[40 : 40 + size]
        return struct.pack("<II", size, 0)

    def room(self, number, body):
        return struct.pack("<5Q4I6I", *[1 << 20] * 5, PAGE, 255, PAGE, 0, *[0] * 6)

    def list(self, number, body):
        """The names of a folder behind so many that were told."""
        told, most = struct.unpack_from("<8xQI", body)
        text = b""
        for place, (name, node) in enumerate(self.nodes[number].names.items(), 1):
            line = struct.pack("<QQII", node, place, len(name), self.nodes[node].mode >> 12) + name
            line += bytes(-len(line) % 8)
            if place > told and len(text + line) <= most:
                text += line
        return text

    def answer(self, fuse):
        """Answers one request. Three kinds ask for no answer: forget, of one and of many, and interrupt."""
        request = os.read(fuse, 64 * PAGE)
        opcode, unique, number = struct.unpack_from("<4xIQQ", request)
        if opcode in (2, 36, 42):
            return
        error, body = 0, b""
        try:
            call = self.calls.get(opcode)
            if call is None:
                raise OSError(errno.ENOSYS, "no such call")
            body = call(number, request[40:])
        except OSError as failed:
            error = failed.errno
        os.write(fuse, struct.pack("<IiQ", 16 + len(body), -error, unique) + body)

    def lose(self, at):
        """From now on the write of this number is lost, none where it is 0."""
        self.lost_at, self.writes = at, 0

    def written(self):
        """How many writes came since then."""
        return self.writes

    def content(self, name):
        """The bytes of a file of the top folder."""
        return bytes(self.nodes[self.nodes[ROOT].names[name.encode()]].data)

    def has_cache(self):
        """Whether Linux writes back later."""
        return self.is_cached

    def serve(self, fuse, control):
        """Answers Linux, and between its requests the one who made the device, until that one has gone."""
        while True:
            ready = select.select([fuse, control], [], [])[0]
            try:
                if fuse in ready:
                    self.answer(fuse)
                else:
                    word, *more = control.recv()
                    control.send(getattr(self, word)(*more))
            except EOFError:
                return
            except OSError as failed:
                # A request that was taken back, or one that nobody waits for any longer.
                if failed.errno not in (errno.ENOENT, errno.EAGAIN, errno.EINTR):
                    return


def run_device(fuse, control, other):
    """The whole life of a device's process: it ends with the caller, or late."""
    signal.signal(signal.SIGINT, signal.SIG_IGN)
    signal.alarm(MOST_SECONDS)
    other.close()
    Device().serve(fuse, control)


class Medium:
    """A device of its own process, mounted over a folder until it is left."""

    def __init__(self, folder):
        self.folder = os.fsencode(folder)

    def __enter__(self):
        fuse = os.open("/dev/fuse", os.O_RDWR | os.O_NONBLOCK)
        try:
            words = f"fd={fuse},rootmode=40000,user_id={os.getuid()},group_id={os.getgid()}".encode()
            system(LIBC.mount(b"medium", self.folder, b"fuse", ctypes.c_ulong(MS_NOSUID | MS_NODEV), words))
            forking = multiprocessing.get_context("fork")
            self.control, control = forking.Pipe()
            self.process = forking.Process(target=run_device, args=(fuse, control, self.control), daemon=True)
            self.process.start()
            control.close()
        finally:
            os.close(fuse)
        try:
            os.stat(self.folder)  # Linux asks for the folder's owner, without whom nothing can be made in it
        except OSError:
            self.__exit__()
            raise
        return self

    def ask(self, *words):
        """What the device says to a word."""
        self.control.send(words)
        if not self.control.poll(MOST_SECONDS):
            raise TimeoutError("the device doesn't answer")
        return self.control.recv()

    def __exit__(self, *raised):
        LIBC.umount2(self.folder, MNT_DETACH)
        self.control.close()
        self.process.join(10)
        self.process.kill()
        self.process.join()


def can_mount(folder):
    """Whether such a device can be mounted over a folder here. From then on this process has mounts of its own."""
    try:
        enter_namespace()
        with Medium(folder) as device:
            return device.ask("has_cache")
    except OSError:
        return False
