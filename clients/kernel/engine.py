# SPDX-License-Identifier: Apache-2.0 OR MIT
"""Plays scripts on the project's own engine, by its player."""
import os
import subprocess
import tempfile

HERE = os.path.dirname(os.path.abspath(__file__))
PLAYER = os.path.join(os.path.dirname(os.path.dirname(HERE)), "crates", "bd_play", "out", "bd_play")


def first_difference(program, seats, plain):
    """Where the player prints something else than a run by the rules says, or None: what was asked, expected and printed. `plain` has
    each request with what is expected."""
    with tempfile.NamedTemporaryFile("w", suffix=".script", encoding="ascii") as file:
        file.write(f"seats {seats}\n" + "".join(f"{asked}\n" for asked, _ in plain))
        file.flush()
        done = subprocess.run([program, "run", file.name], capture_output=True, text=True)
    printed = done.stdout.splitlines()
    for number, (asked, expected) in enumerate(plain, 2):
        its = printed[number - 2] if number - 2 < len(printed) else f"nothing, but {done.stderr.strip()}"
        if its != f"{number}: {expected}":
            return asked, expected, its
    return None
