# SPDX-License-Identifier: Apache-2.0 OR MIT
"""libgbinder, its tools and its headers, from Debian's packages: the real clients.

    packages.py FOLDER      fetches them into a folder

They are those of Debian sid, unpacked into a folder that nobody else looks at: what a machine has is mostly older, so the clients run with
sid's own loader and C library. Fetched once; a folder that is whole is used again. In its bin/ are the tools, ready to be run. Needs
apt-get and dpkg-deb, and a network.
"""
import glob
import os
import re
import shutil
import subprocess
import sys

SUITE = "sid"
MIRROR = "http://deb.debian.org/debian"
KEYRING = "/usr/share/keyrings/debian-archive-keyring.gpg"
# with all that they stand on
RUN = ["libgbinder1", "libgbinder-tools"]
# their headers alone
HEADERS = ["libgbinder-dev", "libglibutil-dev", "libgio-2.0-dev"]
# seconds for one command of apt
PATIENCE = 180


class Missing(Exception):
    """The packages can't be had: why."""


def default_folder():
    """Where `make tools` has them."""
    return os.path.join(os.path.dirname(os.path.dirname(os.path.abspath(__file__))), "out", "packages")


def mirror():
    """Where this machine gets its packages from, if it is a Debian; else where everybody may."""
    for path in glob.glob("/etc/apt/sources.list.d/*.sources") + ["/etc/apt/sources.list"]:
        if os.path.exists(path):
            with open(path, encoding="utf-8") as file:
                found = re.search(r"^(?:URIs:|deb(?:\s+\[[^]]*\])?)\s*(https?://\S*debian\S*)\s*(?:\S|$)", file.read(), re.M)
            if found and "security" not in found[1]:
                return found[1]
    return MIRROR


class Apt:
    """apt-get with lists, cache and state of its own, so that nothing of the machine is looked at or changed."""

    def __init__(self, folder, suites=((None, SUITE),)):
        """Each suite with its mirror, or None for this machine's."""
        self.folder = folder
        for name in ("lists/partial", "cache/archives/partial"):
            os.makedirs(os.path.join(folder, name), exist_ok=True)
        signed = f"[signed-by={KEYRING}] " if os.path.exists(KEYRING) else ""
        with open(f"{folder}/sources.list", "w", encoding="utf-8") as file:
            file.writelines(f"deb {signed}{where or mirror()} {suite} main\n" for where, suite in suites)
        open(f"{folder}/status", "w", encoding="utf-8").close()
        settings = {"Dir::Etc::sourcelist": f"{folder}/sources.list", "Dir::Etc::sourceparts": "/nonexistent",
                    "Dir::State": folder, "Dir::State::lists": f"{folder}/lists", "Dir::State::status": f"{folder}/status",
                    "Dir::Cache": f"{folder}/cache", "APT::Install-Recommends": "false", "APT::Sandbox::User": "root",
                    # (so that no command reads the lists anew, or unpacks them, as a container's settings have it)
                    "Dir::Cache::pkgcache": "pkgcache.bin", "Dir::Cache::srcpkgcache": "srcpkgcache.bin", "Acquire::GzipIndexes": "false",
                    "Acquire::Languages": "none", "Acquire::Retries": "2", "APT::Update::Error-Mode": "any"}
        self.options = [word for key, value in settings.items() for word in ("-o", f"{key}={value}")]

    def __call__(self, *words, cwd=None):
        try:
            done = subprocess.run(["apt-get", *self.options, "-qq", *words], cwd=cwd, stdin=subprocess.DEVNULL,
                                  capture_output=True, text=True, timeout=PATIENCE)
        except FileNotFoundError:
            raise Missing("there is no apt-get here") from None
        except subprocess.TimeoutExpired:
            raise Missing(f"apt-get {words[0]} took over {PATIENCE} seconds") from None
        if done.returncode:
            last = (done.stderr.strip().splitlines() or ["no reason given"])[-1]
            raise Missing(f"apt-get {words[0]}: {last}")


def found(folder):
    """The loader and the folder of the libraries."""
    loaders = glob.glob(f"{folder}/root/usr/lib*/ld-linux*.so.*")
    libraries = glob.glob(f"{folder}/root/usr/lib/*-linux-gnu*/libgbinder.so.1")
    if not loaders or not libraries:
        raise Missing(f"{folder} has no libgbinder; remove it, so that it is fetched anew")
    return loaders[0], os.path.dirname(libraries[0])


def write_starter(folder, tool):
    """A script in bin/ that runs a tool with the packages' loader and libraries, wherever the folder is moved to. The loader has the
    tool's name, since the system calls a process by the file that was started."""
    for name in ("bin", "loaders"):
        os.makedirs(f"{folder}/{name}", exist_ok=True)
    loader, libraries = found(folder)
    os.link(os.path.realpath(loader), f"{folder}/loaders/{tool}")
    words = f'"$here/loaders/{tool}" --library-path "$here/{os.path.relpath(libraries, folder)}" "$here/root/usr/bin/{tool}"'
    with open(f"{folder}/bin/{tool}", "w", encoding="utf-8") as file:
        file.write(f'#!/bin/sh\nhere=${{0%/*}}/..\nexec {words} "$@"\n')
    os.chmod(f"{folder}/bin/{tool}", 0o755)


def write_starters(folder):
    for tool in glob.glob(f"{folder}/root/usr/bin/binder-*"):
        write_starter(folder, os.path.basename(tool))


def without_links(root):
    """Puts the file itself in the place of each link, as `rt ci` takes no checkout that has links; links to folders and to nothing go."""
    for folder, folders, files in os.walk(root):
        for path in (os.path.join(folder, name) for name in folders + files):
            if not os.path.islink(path):
                continue
            file = os.path.realpath(path)
            os.unlink(path)
            if os.path.isfile(file) and file.startswith(f"{root}/"):
                os.link(file, path)


def fetch(folder):
    """Fetches the packages and unpacks them into `folder`/root, in place of what isn't whole there."""
    shutil.rmtree(folder, ignore_errors=True)
    apt = Apt(f"{folder}/apt")
    apt("update")
    apt("install", "-y", "--download-only", *RUN)
    apt("download", *HEADERS, cwd=f"{folder}/apt/cache/archives")
    for package in sorted(glob.glob(f"{folder}/apt/cache/archives/*.deb")):
        if subprocess.run(["dpkg-deb", "-x", package, f"{folder}/root"], stdin=subprocess.DEVNULL).returncode:
            raise Missing(f"{os.path.basename(package)} can't be unpacked")
    without_links(os.path.realpath(f"{folder}/root"))
    shutil.rmtree(f"{folder}/apt")
    open(f"{folder}/whole", "w", encoding="utf-8").close()


class Packages:
    """The unpacked packages."""

    def __init__(self, folder):
        if not os.path.exists(f"{folder}/whole"):
            fetch(folder)
        self.root = f"{folder}/root"
        self.loader, self.libraries = found(folder)
        if not os.path.exists(f"{folder}/loaders"):
            write_starters(folder)

    def command(self, program, *words):
        """A program with the packages' loader and libraries."""
        return [self.loader, "--library-path", self.libraries, program, *words]

    def tool(self, name, *words):
        return self.command(f"{self.root}/usr/bin/{name}", *words)

    def build_words(self):
        """What a compiler needs for programs against the packages' libraries."""
        include = f"{self.root}/usr/include"
        folders = [f"{include}/gbinder", f"{include}/gutil", f"{include}/glib-2.0", f"{self.libraries}/glib-2.0/include"]
        libraries = [f"{self.libraries}/libgbinder.so.1", f"{self.libraries}/libglib-2.0.so.0", "-Wl,--allow-shlib-undefined"]
        return [word for folder in folders for word in ("-isystem", folder)], libraries


def main():
    if len(sys.argv) != 2:
        print("usage: packages.py FOLDER", file=sys.stderr)
        return 2
    try:
        Packages(os.path.abspath(sys.argv[1]))
    except (Missing, OSError) as why:
        print(f"libgbinder can't be had: {why}", file=sys.stderr)
        return 1
    return 0


if __name__ == "__main__":
    sys.exit(main())
