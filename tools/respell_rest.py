#!/usr/bin/env python3
"""Names that the kit's port.py turned by itself, in what it leaves: the must-fail edits and the documents.

usage: tools/respell_rest.py COMMIT [--look]     at the top of the repository; COMMIT is the last one in the older spelling
"""

import os
import re
import subprocess
import sys

sys.path.insert(0, os.path.dirname(os.path.abspath(__file__)))
import respell  # noqa: E402


def declared_at(commit):
    """Names that files of specs/ and proofs/ declared then."""
    names = set()
    listed = subprocess.run(["git", "ls-tree", "-r", "--name-only", commit, "crates"], capture_output=True, text=True, check=True).stdout
    for path in listed.splitlines():
        if path.endswith(".antt"):
            text = subprocess.run(["git", "show", f"{commit}:{path}"], capture_output=True, text=True, check=True).stdout
            for line in text.splitlines():
                m = respell.DECLARED.match(line.replace("·", "."))
                if m and not re.search(r" : tie ", line):
                    names.add(m[1])
    return names


def main():
    now = set(respell.declared())
    turned = {n: respell.snake(n) for n in declared_at(sys.argv[1]) if respell.snake(n) != n and n not in now and respell.snake(n) in now}
    if "--look" in sys.argv:
        print(" ".join(sorted(turned)))
        return
    for path in [f for f in respell.files() if f.endswith(".edit")] + [d for d in respell.documents() if d != "docs/PORT.md"]:
        before = respell.read(path)
        after = respell.turn(path, before, turned)
        if after != before:
            with open(path, "w", encoding="utf-8") as f:
                f.write(after)
            print(path)


if __name__ == "__main__":
    os.chdir(os.path.join(os.path.dirname(os.path.abspath(__file__)), ".."))
    main()
