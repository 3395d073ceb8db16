"""A file system in an image on a loop device, whose power can be cut, for the tool that does it. It is no tool.

All is mounted in a name space of this process alone, and the loop device goes with the mount. So nothing is left
mounted, even where this process is killed. What a disk itself holds back in a memory of its own is not lost here: what
the file system handed to the device is kept.
"""
import ctypes
import errno
import fcntl
import os
import shutil
import struct
import subprocess
import time

CLONE_NEWNS, MS_REC, MS_PRIVATE = 0x20000, 0x4000, 0x40000
# EXT4_IOC_SHUTDOWN and XFS_IOC_GOINGDOWN are the same call, with the same flags.
SHUTDOWN = 0x8004587D
LOOP_SET_STATUS64, LOOP_GET_STATUS64, STATUS_BYTES, LIMIT_AT = 0x4C04, 0x4C05, 232, 32
RANGE_WAITED = 7
IMAGE_BYTES = 400 << 20
# How the power goes. By `device` no byte more reaches the device, whatever the file system does.
FLAGS = {"default": 0, "logflush": 1, "nologflush": 2}
MODES = {"ext4": (*FLAGS, "device"), "xfs": (*FLAGS, "device"), "btrfs": ("device",)}
OPTIONS = {"ext4": ("data=ordered", "data=writeback", "data=journal", "data=ordered,nodelalloc"), "xfs": ("defaults",),
           "btrfs": ("defaults", "nodatacow")}
MAKERS = {"ext4": ("mkfs.ext4", "-q", "-F"), "xfs": ("mkfs.xfs", "-q", "-f"), "btrfs": ("mkfs.btrfs", "-q", "-f")}
libc = ctypes.CDLL(None, use_errno=True)


def maker_of(kind):
    """The program that makes such a file system, or None."""
    return shutil.which(MAKERS[kind][0], path=os.environ.get("PATH", "") + ":/usr/sbin:/sbin")


def mounts_alone():
    """Lets the mounts of this process be its own. Whether it may."""
    if libc.unshare(CLONE_NEWNS) != 0:
        return False
    return libc.mount(b"none", b"/", None, MS_REC | MS_PRIVATE, None) == 0


def run(*words):
    """A command that has to succeed."""
    done = subprocess.run(words, stdout=subprocess.PIPE, stderr=subprocess.STDOUT, stdin=subprocess.DEVNULL, text=True)
    if done.returncode != 0:
        raise OSError(f"{' '.join(words)}: {' '.join(done.stdout.splitlines()[:1])}")


class PoweredImage:
    """An image with a new file system of this kind, and where it is mounted."""

    def __init__(self, room, kind, options):
        self.kind, self.options = kind, options
        self.image, self.top = os.path.join(room, "image"), os.path.join(room, "mounted")
        os.makedirs(self.top, exist_ok=True)
        with open(self.image, "wb") as file:
            file.truncate(IMAGE_BYTES)
        run(maker_of(kind), *MAKERS[kind][1:], self.image)
        self.mount()

    def reuses_blocks(self):
        """Whether a file that was removed, and comes back by a cut, may have the bytes of another one."""
        return self.options == "data=writeback"

    def mount(self):
        run("mount", "-t", self.kind, "-o", f"loop,{self.options}", self.image, self.top)

    def unmount(self):
        """The last use of a file may end a little later than its process."""
        for _ in range(50):
            if subprocess.run(("umount", self.top), stderr=subprocess.DEVNULL).returncode == 0:
                return
            time.sleep(0.1)
        run("umount", "-l", self.top)

    def restart(self):
        """The power comes back."""
        self.unmount()
        self.mount()

    def give_up(self):
        if os.path.ismount(self.top):
            self.unmount()
        os.remove(self.image)

    def device(self):
        with open("/proc/self/mounts", encoding="utf-8") as lines:
            return next(fields[0] for fields in map(str.split, lines) if fields[1] == self.top)

    def cut(self, mode):
        """The power goes."""
        if mode == "device":
            self.cut_device()
            return
        folder = os.open(self.top, os.O_RDONLY)
        try:
            fcntl.ioctl(folder, SHUTDOWN, struct.pack("I", FLAGS[mode]))
        finally:
            os.close(folder)

    def cut_device(self):
        """From now on the device has one sector, so that all reads and writes past it fail."""
        device = os.open(self.device(), os.O_RDONLY)
        try:
            status = bytearray(STATUS_BYTES)
            fcntl.ioctl(device, LOOP_GET_STATUS64, status)
            struct.pack_into("Q", status, LIMIT_AT, 512)
            fcntl.ioctl(device, LOOP_SET_STATUS64, bytes(status))
        finally:
            os.close(device)

    def write_back(self, random, folder):
        """Some of what is in memory alone goes to the device: all of it, or parts of files in whatever order."""
        try:
            if random.random() < 0.2:
                self.write_all()
            for _ in range(random.randrange(1, 8)):
                self.write_part(random, folder)
        except OSError as error:
            # The program took the name away meanwhile.
            if error.errno != errno.ENOENT:
                raise

    def write_all(self):
        top = os.open(self.top, os.O_RDONLY)
        libc.syncfs(top)
        os.close(top)

    def write_part(self, random, folder):
        paths = [os.path.join(at, name) for at, _, names in sorted(os.walk(folder)) for name in sorted(names)]
        if not paths:
            return
        file = os.open(random.choice(paths), os.O_RDONLY)
        pages = os.fstat(file).st_size // 4096 + 1
        begin = random.randrange(pages)
        count = random.choice((1, 1, 2, pages))
        libc.sync_file_range(file, ctypes.c_int64(begin * 4096), ctypes.c_int64(count * 4096), RANGE_WAITED)
        os.close(file)
