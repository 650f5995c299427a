# SPDX-License-Identifier: Apache-2.0 OR MIT
"""Roots of Debian's suites, in which what we give away is tried as a newcomer finds it."""
import functools
import subprocess

import plainly

# Seconds that one command may take.
SECONDS = 1800
must = functools.partial(plainly.must, timeout=SECONDS)


def of_machine():
    """What this machine says of mirrors that stand still, which goes for the root too."""
    option = "Acquire::Check-Valid-Until"
    said = subprocess.run(["apt-config", "dump", "--format", "%F \"%v\";%n", option], capture_output=True, text=True)
    return [f"--aptopt={line}" for line in said.stdout.splitlines() if line.startswith(f"{option} ")]


def bootstrapped(suite, included, to):
    """Makes a root of a suite's essential packages and these: a folder, or an archive of tar."""
    must(["mmdebstrap", "--quiet", "--variant=essential", *of_machine(), f"--include={included}", suite, to])
