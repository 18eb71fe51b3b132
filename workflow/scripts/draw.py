#!/usr/bin/env python3
"""A picture of every sheet of a list: draw.py --ndigo PROGRAM [--sort] --list NAMES --into FOLDER. `places` says where each one stands in the folder.

A refused sheet is drawn too (ndigo's status 1), one that cannot be read is not (2): answers.tsv says which and why, so both are done.
"""
import argparse
import os
import subprocess
import sys


def places(names):
    """Where each sheet's picture stands: under the sheet's own name without its ending, and in a folder 2, 3 and so on where others before it have that name."""
    found, taken = {}, {}
    for name in names:
        if name in found:
            continue
        stem = os.path.splitext(os.path.basename(name))[0]
        taken[stem] = taken.get(stem, 0) + 1
        found[name] = f"{stem}.svg" if taken[stem] == 1 else f"{taken[stem]}/{stem}.svg"
    return found


def main():
    words = argparse.ArgumentParser(description=__doc__, formatter_class=argparse.RawDescriptionHelpFormatter)
    words.add_argument("--ndigo", required=True)
    words.add_argument("--sort", action="store_true")
    words.add_argument("--list", required=True)
    words.add_argument("--into", required=True)
    asked = words.parse_args()
    with open(asked.list, encoding="utf-8") as names:
        listed = names.read().split("\n")
    folders = {}
    for name, place in places(filter(None, listed)).items():
        folders.setdefault(os.path.dirname(place), []).append(name)
    os.makedirs(asked.into, exist_ok=True)
    for folder, names in folders.items():
        draw = [asked.ndigo, "draw", *(["--sort"] if asked.sort else []), "--into", os.path.join(asked.into, folder), "--"]
        call = ["xargs", "-d", "\n", "sh", "-c", '"$@" || [ $? -le 2 ]', "sh", *draw]
        done = subprocess.run(call, input="".join(name + "\n" for name in names).encode())
        if done.returncode:
            sys.exit(f"{asked.ndigo} draw: ended otherwise than by status 0, 1 or 2; what it said stands above")


if __name__ == "__main__":
    main()
