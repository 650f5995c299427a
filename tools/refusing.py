# SPDX-License-Identifier: Apache-2.0 OR MIT
"""Runs of a program in which one request for memory is refused. Needs a C compiler (cc)."""
import os
import subprocess

HERE = os.path.dirname(os.path.abspath(__file__))
# Seconds that a run may take.
LIMIT = 120


class Refusing:
    """Words of a program, with what they print and how many requests for memory they make undisturbed."""

    def __init__(self, words, folder, given=None):
        self.words, self.given, self.shim = words, given, shim_in(folder)
        counted = f"{folder}/count"
        self.undisturbed = self.ran({"STARVE": "0", "STARVE_COUNT": counted})
        with open(counted) as file:
            self.requests = int(file.read())

    def ran(self, environment):
        """Its status, output and complaints; what it reads is the file `given`, or nothing."""
        with open(self.given or os.devnull) as file:
            done = subprocess.run(self.words, env={"LD_PRELOAD": self.shim, **environment}, stdin=file, capture_output=True, timeout=LIMIT)
        return done.returncode, done.stdout.decode(), done.stderr.decode()

    def refused(self, request):
        return self.ran({"STARVE": str(request)})

    def each(self, pool):
        """Each request, from 1, with what comes where it is refused."""
        numbers = range(1, self.requests + 1)
        return zip(numbers, pool.map(self.refused, numbers))


def shim_in(folder):
    """The shared object that refuses requests, built once in a folder."""
    shim = f"{folder}/starve.so"
    if not os.path.exists(shim):
        subprocess.run(["cc", "-O2", "-shared", "-fPIC", "-o", shim, f"{HERE}/starve.c", "-ldl"], check=True)
    return shim
