#!/usr/bin/env python3
"""Lists the must-fail edits whose old text does not stand once in its file: port_edits.py [FOLDER]"""
import os
import re
import sys


def main(top):
    n = bad = 0
    for crate in sorted(os.listdir(os.path.join(top, "crates"))):
        folder = os.path.join(top, "crates", crate, "must-fail")
        for name in sorted(os.listdir(folder)) if os.path.isdir(folder) else []:
            if not name.endswith(".edit"):
                continue
            n += 1
            with open(os.path.join(folder, name), encoding="utf-8") as f:
                lines = f.read().split("\n")
            path, texts, old = None, {}, None
            for line in lines:
                key, _, value = line.partition(":")
                value = value[1:] if value.startswith(" ") else value
                if key == "file":
                    path = value.strip()
                    if path not in texts:
                        with open(os.path.join(top, "crates", crate, path), encoding="utf-8") as f:
                            texts[path] = f.read()
                elif key == "old":
                    old = value
                    count = texts[path].count(old)
                    if count != 1:
                        bad += 1
                        print(f"{crate}/{name}: {count} times in {path}: {old.strip()[:120]}")
                elif key == "new" and texts[path].count(old) == 1:
                    texts[path] = texts[path].replace(old, value)
    print(f"{n} edits, {bad} texts that do not stand once")


main(sys.argv[1] if len(sys.argv) > 1 else ".")
