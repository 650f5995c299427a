# SPDX-License-Identifier: Apache-2.0 OR MIT
"""Documents that a program here makes of the sources."""
import os
import sys

import plainly  # noqa: F401  (what is missing is told in one line)


def page(path, text):
    """What such a program comes to: it writes the text, or with the word `--check` only sees that it stands there already. A status."""
    if sys.argv[1:] != ["--check"]:
        with open(path, "w", encoding="utf-8") as file:
            file.write(text)
        return 0
    with open(path, encoding="utf-8") as file:
        if file.read() == text:
            return 0
    name, program = os.path.basename(path), os.path.basename(sys.argv[0])
    print(f"docs/{name} isn't what tools/{program} writes")
    return 1
