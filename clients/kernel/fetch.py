# SPDX-License-Identifier: Apache-2.0 OR MIT
"""Linux's own Binder driver for a virtual machine, from Debian's packages: the kernel's image with the module `binder_linux`, a static
busybox for its first process, and qemu where the machine has none.

    fetch.py FOLDER [SUITE]     fetches them into a folder: 71 MB (newer ones 120), and qemu some 90 MB more

Nothing of the machine's own packages is looked at or changed. Fetched once; a folder that is whole is used again. Needs apt-get, dpkg-deb
and a network.
"""
import glob
import gzip
import lzma
import os
import re
import shutil
import stat
import subprocess
import sys

HERE = os.path.dirname(os.path.abspath(__file__))
sys.path.insert(0, os.path.join(os.path.dirname(HERE), "tests"))

import packages  # noqa: E402
from packages import Apt, Missing, without_links  # noqa: E402

SUITE = "bookworm"
SECURITY = "http://deb.debian.org/debian-security"
# seconds for one command of apt: a newer kernel's modules are 107 MB
packages.PATIENCE = 600
# the newest image of the suite is what this one asks for
IMAGE_OF = "linux-image-amd64"
QEMU = "qemu-system-x86_64"
# what the machine needs beside what these need; some kernels have some of them built in
MODULES = ["virtio_pci", "9pnet_virtio", "9p", "binder_linux"]


def default_folder():
    """Where the command has them."""
    return os.path.join(os.path.dirname(HERE), "out", "kernel")


def unpack(package, folder):
    if subprocess.run(["dpkg-deb", "-x", package, folder], stdin=subprocess.DEVNULL).returncode:
        raise Missing(f"{os.path.basename(package)} can't be unpacked")


def field(package, name):
    return subprocess.run(["dpkg-deb", "-f", package, name], capture_output=True, text=True, check=True).stdout.strip()


def only(pattern):
    found = glob.glob(pattern, recursive=True)
    if len(found) != 1:
        raise Missing(f"{pattern} is there {len(found)} times")
    return found[0]


def archived(name, mode, data, number):
    """An entry of a cpio archive in the form that the kernel unpacks: a head of thirteen numbers, the name, the bytes."""
    head = [number, mode, 0, 0, 1, 0, len(data), 0, 0, 0, 0, len(name) + 1, 0]
    entry = b"070701" + b"".join(b"%08x" % it for it in head) + name.encode() + b"\0"
    entry += bytes(-len(entry) % 4)
    return entry + data + bytes(-len(data) % 4)


def without_compression(path):
    """A module's file, which newer packages have compressed."""
    if not path.endswith(".xz"):
        return path
    with lzma.open(path) as file, open(path[:-3], "wb") as to:
        shutil.copyfileobj(file, to)
    return path[:-3]


def needs_of(module):
    """The modules that one names in its own file."""
    with open(module, "rb") as file:
        found = re.search(rb"\0depends=([^\0]*)\0", file.read())
    return [it for it in (found[1].decode() if found else "").split(",") if it]


def modules_of(root):
    """The modules' files, each behind those that it needs."""
    found = {os.path.basename(it).split(".")[0].replace("-", "_"): it for it in glob.glob(f"{root}/**/*.ko*", recursive=True)}
    ordered = []

    def add(name):
        path = found.get(name.replace("-", "_"))
        if path and path.removesuffix(".xz") not in ordered:
            path = without_compression(path)
            for need in needs_of(path):
                add(need)
            ordered.append(path)
    for name in MODULES:
        add(name)
    return ordered


def write_first_files(path, busybox, modules):
    """The files that the kernel begins with: busybox, the modules with their order, and `init`, which says what is done with them."""
    with open(f"{path}.order", "w", encoding="ascii") as file:
        file.writelines(f"{os.path.basename(it)}\n" for it in modules if "binder_linux" not in it)
    files = {"init": f"{HERE}/init", "bin/busybox": busybox, "modules/order": f"{path}.order",
             **{f"modules/{os.path.basename(it)}": it for it in modules}}
    archive, number = b"", 1
    for folder in ("bin", "modules", "proc", "sys", "dev", "tmp", "etc", "work", "usr"):
        archive += archived(folder, stat.S_IFDIR | 0o755, b"", number)
        number += 1
    for name, source in files.items():
        with open(source, "rb") as file:
            archive += archived(name, stat.S_IFREG | 0o755, file.read(), number)
        number += 1
    archive += archived("etc/passwd", stat.S_IFREG | 0o644, b"root:x:0:0::/:/bin/sh\n", number)
    with open(path, "wb") as file:
        file.write(gzip.compress(archive + archived("TRAILER!!!", 0, b"", 0), 1))


def unpacked(image):
    """The kernel within an image that unpacks itself, which an emulated processor takes longer for than for all the rest of its start."""
    at = image.find(b"\xfd7zXZ\0")
    try:
        return lzma.LZMADecompressor().decompress(image[at:]) if at >= 0 else image
    except lzma.LZMAError:
        return image


def fetch_named(apt, name, to):
    """A package, and those that a newer kernel's package is made of, with exactly its version; its file."""
    apt("download", name, cwd=to)
    package = only(f"{to}/{name.split('/')[0]}_*.deb")
    for part in re.findall(r"linux-(?:base|binary|modules)-[0-9][^ ,]*", field(package, "Depends")):
        apt("download", part, cwd=to)
    return package


def fetch_image(apt, folder, suite):
    """The kernel, its first files, and which version it is."""
    debs = f"{folder}/packages"
    os.makedirs(debs, exist_ok=True)
    apt("download", f"{IMAGE_OF}/{suite}" if suite != SUITE else IMAGE_OF, "busybox-static", cwd=debs)
    names = re.findall(r"linux-image-[0-9][^ ,]*", field(only(f"{debs}/{IMAGE_OF}_*.deb"), "Depends"))
    image = fetch_named(apt, names[0], debs)
    for package in glob.glob(f"{debs}/*.deb"):
        unpack(package, f"{debs}/root")
    kernels = glob.glob(f"{debs}/root/boot/vmlinuz-*") + glob.glob(f"{debs}/root/usr/lib/modules/*/vmlinuz")
    with open(kernels[0], "rb") as file, open(f"{folder}/vmlinux", "wb") as to:
        to.write(unpacked(file.read()))
    write_first_files(f"{folder}/first-files", only(f"{debs}/root/**/bin/busybox"), modules_of(f"{debs}/root"))
    for path in glob.glob(f"{debs}/root/boot/config-*") + glob.glob(f"{debs}/root/usr/lib/modules/*/config"):
        shutil.copy(path, f"{folder}/config")
    with open(f"{folder}/version", "w", encoding="utf-8") as file:
        file.write(f"Linux {names[0].removeprefix('linux-image-')}, Debian's {field(image, 'Version')}\n")
    shutil.rmtree(debs)


def fetch_qemu(apt, folder):
    """qemu with all that it stands on, its own loader and C library too."""
    root = f"{folder}/qemu"
    apt("install", "-y", "--download-only", "qemu-system-x86")
    for package in sorted(glob.glob(f"{folder}/apt/cache/archives/*.deb")):
        unpack(package, root)
    without_links(os.path.realpath(root))


def suites_of(suite):
    """A suite, and what it is built upon."""
    if suite == SUITE:
        return [(None, SUITE), (SECURITY, f"{SUITE}-security")]
    return [(None, it) for it in dict.fromkeys([suite.removesuffix("-backports"), suite])]


def fetch(folder, suite=SUITE):
    """Fetches all of it, in place of what isn't whole there."""
    shutil.rmtree(folder, ignore_errors=True)
    apt = Apt(f"{folder}/apt", suites_of(suite))
    apt("update")
    fetch_image(apt, folder, suite)
    if not shutil.which(QEMU):
        fetch_qemu(apt, folder)
    shutil.rmtree(f"{folder}/apt")
    open(f"{folder}/whole", "w", encoding="utf-8").close()


class Kernel:
    """What was fetched, as the machine needs it."""

    def __init__(self, folder, suite=SUITE):
        if not os.path.exists(f"{folder}/whole"):
            fetch(folder, suite)
        self.image, self.first_files = f"{folder}/vmlinux", f"{folder}/first-files"
        with open(f"{folder}/version", encoding="utf-8") as file:
            self.version = file.read().strip()
        self.environment, self.qemu = dict(os.environ), [shutil.which(QEMU)]
        if not self.qemu[0]:
            self.use_fetched(f"{folder}/qemu")

    def use_fetched(self, root):
        libraries = os.path.dirname(only(f"{root}/**/x86_64-linux-gnu/libc.so.6"))
        paths = sorted({libraries, *(os.path.dirname(it) for it in glob.glob(f"{root}/**/x86_64-linux-gnu/**/*.so.*", recursive=True))})
        loader = glob.glob(f"{root}/**/ld-linux-x86-64.so.2", recursive=True)[0]
        shares = [f"{root}/usr/share/{name}" for name in ("qemu", "seabios")]
        self.environment["QEMU_MODULE_DIR"] = f"{root}/usr/lib/x86_64-linux-gnu/qemu"
        self.qemu = [loader, "--library-path", ":".join(paths), f"{root}/usr/bin/{QEMU}"]
        self.qemu += [word for it in shares if os.path.isdir(it) for word in ("-L", it)]


def main():
    if len(sys.argv) not in (2, 3):
        print("usage: fetch.py FOLDER [SUITE]", file=sys.stderr)
        return 2
    try:
        print(Kernel(os.path.abspath(sys.argv[1]), *sys.argv[2:]).version)
    except (Missing, OSError) as why:
        print(f"the driver can't be had: {why}", file=sys.stderr)
        return 1
    return 0


if __name__ == "__main__":
    sys.exit(main())
