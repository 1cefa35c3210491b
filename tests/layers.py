#!/usr/bin/env python3
"""Says where crates.txt breaks its own order. A heading `# NAME: what it has` begins a layer, and the layers come lowest first.
Told are: a crate that lists one of a higher layer, or one that comes after it; a crate that is named twice, or in no layer; a
folder of crates/ that isn't named, and a name without a folder. It reads the text alone, and its status is 1 where it tells
anything. An argument names another top of a repository."""
import os
import re
import sys


# The layers by name, lowest first; each crate's layer and libraries, by the line that it has; and what is wrong so far.
def read(path):
    layers, lines, wrong = [], [], []
    for number, line in enumerate(open(path, encoding="utf-8"), 1):
        heading = re.match(r"# ([^:]+): ", line)
        crate = re.match(r"(\w+)(?: [^:#]*)?:([^#]*)", line)
        if heading:
            layers.append(heading.group(1))
        elif crate:
            name, libraries = crate.group(1), crate.group(2).split()
            if not layers:
                wrong.append(f"line {number}: {name} is in no layer")
            before = next((n for n, other, _, _ in lines if other == name), None)
            if before:
                wrong.append(f"line {number}: {name} is named a second time, first in line {before}")
            lines.append((number, name, len(layers) - 1, libraries))
        elif line.partition("#")[0].strip():
            wrong.append(f"line {number}: no crate and no heading: {line.strip()}")
    for name in sorted({n for n in layers if layers.count(n) > 1}):
        wrong.append(f"the layer {name} has two headings")
    return layers, lines, wrong


def pointing_up(layers, lines):
    wrong = []
    at = {name: (number, layer) for number, name, layer, _ in reversed(lines)}
    for number, name, layer, libraries in lines:
        for other in libraries:
            if other not in at:
                continue
            other_number, other_layer = at[other]
            if other_layer > layer:
                wrong.append(f"line {number}: {name} ({named(layers, layer)}) lists {other} of a higher layer"
                    f" ({named(layers, other_layer)})")
            elif other_number >= number:
                wrong.append(f"line {number}: {name} lists {other}, which comes after it")
    return wrong


def named(layers, layer):
    return layers[layer] if layer >= 0 else "no layer"


def without_folder(top, lines):
    there = {name for name in os.listdir(f"{top}/crates") if os.path.isdir(f"{top}/crates/{name}/src")}
    names = {name for _, name, _, _ in lines}
    return [f"{name} has a folder and no line" for name in sorted(there - names)] + \
        [f"{name} has a line and no folder" for name in sorted(names - there)]


def main():
    here = os.path.dirname(os.path.abspath(__file__))
    top = sys.argv[1] if len(sys.argv) > 1 else os.path.join(here, "..")
    layers, lines, wrong = read(f"{top}/crates.txt")
    wrong += pointing_up(layers, lines) + without_folder(top, lines)
    for each in wrong:
        print(f"crates.txt: {each}")
    print(f"crates.txt: {len(lines)} crates in {len(layers)} layers, {len(wrong)} wrong")
    sys.exit(1 if wrong else 0)


if __name__ == "__main__":
    main()
