# SPDX-License-Identifier: Apache-2.0 OR MIT
"""Plays scripts on Linux's own driver, in the virtual machine, in one go or in several."""
import glob
import os
import shutil
import subprocess

from machine import NotRun, run
from play import without_pointers
from scripts import tohex

HERE = os.path.dirname(os.path.abspath(__file__))
SOURCES = ["player.c", "process.c", "requests.c"]
# the player is looked at by nothing that has to be fetched while it runs, and no thread of real time is held back
RUN = """cp player /tmp
echo -1 > /proc/sys/kernel/sched_rt_runtime_us
/tmp/player scripts > answers
"""
UNKNOWN_PID = 999999999


def build(static=True):
    """The player, which needs nothing of the machine that it runs on where it is static; where it is."""
    folder = os.path.join(os.path.dirname(HERE), "out", "kernel-player")
    os.makedirs(folder, exist_ok=True)
    to = os.path.join(folder, "player" if static else "player-dynamic")
    words = ["cc", *(["-static"] if static else []), "-std=gnu17", "-D_GNU_SOURCE", "-O2", "-g", "-Wall", "-Wextra", "-Wshadow",
             "-Werror", "-o", to]
    done = subprocess.run([*words, *(os.path.join(HERE, it) for it in SOURCES), "-pthread"], capture_output=True, text=True)
    if done.returncode:
        raise NotRun(f"the player can't be built: {done.stderr}")
    return to


def write_scripts(path, lowered):
    """`lowered` has by each script's name the lines for the player, each with its number."""
    with open(path, "w", encoding="ascii") as file:
        for name, lines in lowered.items():
            file.write(f"script {name}\n{''.join(f'{it}{chr(10)}' for it in lines)}end\n")


def read_whole(path):
    """The lines of each script that a file has to its end, by name: what was broken off isn't there."""
    found, name, lines = {}, None, []
    with open(path, encoding="ascii") as file:
        for line in file.read().splitlines():
            if line.startswith("script "):
                name, lines = line[7:], []
            elif line == "end":
                found[name] = lines
            else:
                lines.append(line)
    return found


class Answers:
    """What the player told of one script: by line, the answers of its seat and of those whose reads it brought to their end."""

    def __init__(self, lines):
        self.lines, self.pids = {}, {0: 0}
        for line in lines:
            self.take(line)

    def take(self, line):
        words = line.split(" ")
        if words[0] == "process":
            self.pids[int(words[2])] = int(words[1])
        else:
            self.lines.setdefault(int(words[0]), []).append((int(words[1]), self.meant(words[2:])))

    def meant(self, words):
        """An answer with the script's pids."""
        if words[0] == "got":
            words[1] = tohex(without_pointers(bytes.fromhex(words[1]), lambda it: self.pids.get(it, UNKNOWN_PID)))
        return " ".join(words)


def read_answers(path):
    return {name: Answers(lines) for name, lines in read_whole(path).items()}


class Goes:
    """A folder with all that a run has played, go by go. A go that was broken off stands as far as it came."""

    def __init__(self, folder, kernel):
        self.folder, self.kernel = folder, kernel
        os.makedirs(folder, exist_ok=True)

    def answers(self, lowered):
        """What this kernel has answered to the scripts that were played by now as they are here."""
        found = {}
        for go in sorted(glob.glob(f"{self.folder}/go-*/answers")):
            go = os.path.dirname(go)
            with open(f"{go}/version", encoding="utf-8") as file:
                if file.read() != self.kernel.version:
                    continue
            asked = read_whole(f"{go}/scripts")
            answers = read_answers(f"{go}/answers")
            found |= {name: its for name, its in answers.items() if name in lowered and asked[name] == lowered[name]}
        return found

    def play(self, lowered, seconds):
        """Plays scripts in one more go."""
        go = f"{self.folder}/go-{len(glob.glob(f'{self.folder}/go-*')):03}"
        os.mkdir(go)
        shutil.copy(build(), go)
        write_scripts(f"{go}/scripts", lowered)
        for name, text in (("version", self.kernel.version), ("run", RUN)):
            with open(f"{go}/{name}", "w", encoding="utf-8") as file:
                file.write(text)
        status, output = run(self.kernel, go, seconds)
        if status:
            raise NotRun(f"the player ended with {status}: {output[-600:]}")


def play(goes, lowered, seconds):
    """What the driver answers to each script; those that weren't played yet are."""
    left = lowered.keys() - goes.answers(lowered).keys()
    if left:
        print(f"{len(left)} of {len(lowered)} scripts are to be played", flush=True)
        try:
            goes.play({name: lines for name, lines in lowered.items() if name in left}, seconds)
        except NotRun as why:
            raise NotRun(f"{len(goes.answers(lowered))} of {len(lowered)} scripts are played by now, then: {why}") from why
    return goes.answers(lowered)
