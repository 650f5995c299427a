# SPDX-License-Identifier: Apache-2.0 OR MIT
"""Kernels of other suites of Debian's than the one that clients/kernel has, older and newer ones, for the same virtual machine."""
import glob
import lzma
import os
import re
import shutil

import fetch
from packages import Apt


def unpacked(path):
    """A module's file, unpacked where it is compressed."""
    if not path.endswith(".xz"):
        return path
    plain = path.removesuffix(".xz")
    if not os.path.exists(plain):
        with lzma.open(path) as packed, open(plain, "wb") as file:
            shutil.copyfileobj(packed, file)
    return plain


def needs(path):
    """The names of the modules that a module stands on, which it says itself."""
    with open(path, "rb") as file:
        said = re.search(rb"\0depends=([^\0]*)\0", file.read())
    return [name.replace("-", "_") for name in said[1].decode().split(",") if name] if said else []


def modules(root):
    """The machine's modules with what they stand on, in the order in which they have to be loaded, unpacked."""
    top = os.path.dirname(fetch.only(f"{root}/**/modules.order"))
    found = {os.path.basename(path).split(".")[0].replace("-", "_"): path for path in glob.glob(f"{top}/kernel/**/*.ko*", recursive=True)}
    ordered = []

    def add(name):
        # what a newer kernel has within itself isn't there
        if name not in found:
            return
        path = found[name] = unpacked(found[name])
        if path in ordered:
            return
        for need in needs(path):
            add(need)
        ordered.append(path)

    for name in fetch.MODULES:
        add(name)
    return ordered


def write_first(folder, root, found):
    """What the kernel begins with, in which its own modules are loaded."""
    with open(f"{fetch.HERE}/init", encoding="utf-8") as file:
        lines = file.read().splitlines()
    names = " ".join(os.path.basename(path) for path in found if "binder_linux" not in path)
    lines = [f"for name in {names}; do insmod /modules/$name; done" if it.startswith("for name in ") else it for it in lines]
    with open(f"{folder}/init", "w", encoding="utf-8") as file:
        file.write("\n".join(lines) + "\n")
    here, fetch.HERE = fetch.HERE, folder
    fetch.write_first_files(f"{folder}/first-files", glob.glob(f"{root}/**/bin/busybox", recursive=True)[0], found)
    fetch.HERE = here


def fetch_other(folder, suite, mirror):
    """As fetch.py does, for a kernel of another suite, whose modules may be others; qemu is this machine's, or bookworm's."""
    packages = f"{folder}/packages"
    os.makedirs(packages, exist_ok=True)
    apt = Apt(f"{folder}/apt", [(mirror, suite)])
    apt("update")
    apt("download", fetch.IMAGE_OF, "busybox-static", cwd=packages)
    name = re.findall(r"linux-image-[0-9][^ ,]*", fetch.field(fetch.only(f"{packages}/{fetch.IMAGE_OF}_*.deb"), "Depends"))[0]
    apt("download", name, cwd=packages)
    image = fetch.only(f"{packages}/{name}_*.deb")
    fetch.unpack(image, f"{packages}/root")
    fetch.unpack(fetch.only(f"{packages}/busybox-static_*.deb"), f"{packages}/root")
    with open(fetch.only(f"{packages}/root/boot/vmlinuz-*"), "rb") as file, open(f"{folder}/vmlinux", "wb") as to:
        to.write(fetch.unpacked(file.read()))
    write_first(folder, f"{packages}/root", modules(f"{packages}/root"))
    with open(f"{folder}/version", "w", encoding="utf-8") as file:
        file.write(f"Linux {name.removeprefix('linux-image-')}, Debian's {fetch.field(image, 'Version')}\n")
    if not shutil.which(fetch.QEMU) and not os.path.isdir(f"{folder}/qemu"):
        shutil.rmtree(f"{folder}/apt")
        apt = Apt(f"{folder}/apt", [(None, fetch.SUITE)])
        apt("update")
        fetch.fetch_qemu(apt, folder)
    shutil.rmtree(packages)
    shutil.rmtree(f"{folder}/apt")
    open(f"{folder}/whole", "w", encoding="utf-8").close()


def kernel_of(folder, suite, mirror=None):
    """A suite's kernel, kept in a folder."""
    if suite != fetch.SUITE and not os.path.exists(f"{folder}/whole"):
        fetch_other(folder, suite, mirror)
    return fetch.Kernel(os.path.abspath(folder))
