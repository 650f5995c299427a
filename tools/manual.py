# SPDX-License-Identifier: Apache-2.0 OR MIT
"""The manual page of `hullpippin`, written from what its --help tells, so that it has all commands and options of the program."""
import re
import subprocess

HEAD = '.TH HULLPIPPIN 1 "" "hullpippin {version}" "User Commands"\n.SH NAME\nhullpippin \\- shows Binder\'s transactions, recorded or live\n'
TAIL = """.SH ENVIRONMENT
.TP
.B HULLPIPPIN_LIBRARY
the library that judges; else libhullpippin.so.2 beside the program, or where the system has it.
.TP
.BR HULLPIPPIN_PAGER ", " PAGER ", " NO_COLOR
the pager; no colours.
.TP
.BR HULLPIPPIN_SOCKET ", " HULLPIPPIN_RUN
the daemon's socket; the program that runs others over the daemon.
.SH SEE ALSO
.BR bplay (1),
.BR hullpippind (1),
.BR hullpippin-run (1)
"""
COMMAND = re.compile(r"^  ([a-z]+) ", re.M)


def helped(program, *words):
    """What the help says, in lines for a page of 100 columns."""
    done = subprocess.run([program, *words, "--help"], check=True, capture_output=True, text=True)
    return done.stdout.rstrip()


def spelled(text):
    """A text as it stands, in the words of the manual's language."""
    lines = (line.replace("\\", "\\e").replace("-", "\\-") for line in text.split("\n"))
    return "\n".join("\\&" + line if line.startswith((".", "'")) else line for line in lines)


def page(program, version):
    """The page of the program that stands there."""
    first = helped(program)
    parts = [HEAD.format(version=version), ".SH DESCRIPTION\n.nf\n", spelled(first), "\n.fi\n"]
    commands = first[first.index("\nCommands:"):first.index("\nOptions:")]
    for name in COMMAND.findall(commands):
        if name != "help":
            parts += [f".SH {name.upper()}\n.nf\n", spelled(helped(program, name)), "\n.fi\n"]
    return "".join(parts) + TAIL
