#!/usr/bin/env python3
"""Lists what has to be read to know what `run` promises: the definitions that `Runs` reaches, crate by crate, lowest first, each
module with how many of its definitions and lines these are. It reads the text of specs and crates.txt alone. What it prints is
docs/HEADLINE.md from its table on; it takes a second or two. An argument names another top of a repository."""
import glob
import os
import re
import sys

TOP = sys.argv[1] if len(sys.argv) > 1 else os.path.join(os.path.dirname(os.path.abspath(__file__)), "..")
HEADLINE = ("mcap_app", "Runs", "Runs")
WORD = re.compile(r"[^\s(){}\[\],;]+")


class Module:
    def __init__(self, crate, name, path):
        self.crate, self.name = crate, name
        self.names, self.modules, self.bodies, self.home = {}, {}, {}, {}
        self.order = []
        self.read(open(path, encoding="utf-8").read())

    # Reads imports and definitions. A definition goes to the next line at the margin that doesn't begin with its name.
    def read(self, text):
        here = None
        for line in text.split("\n"):
            if line.startswith(("use ", "pub use ")):
                self.take_import(line.split("use ", 1)[1].strip())
                here = None
            elif line.startswith(("--", "module ")) or not line.strip():
                here = None if not line.startswith(" ") else here
            elif line.startswith(" "):
                if here:
                    self.bodies[here].append(line)
            else:
                here = self.take_margin(line, here)
        for name, lines in list(self.bodies.items()):
            if re.search(r"\bdata\b", lines[0]):
                for line in lines[1:]:
                    m = re.match(r"\s+(?:pub )?(\w+) :", line)
                    if m:
                        self.home[m.group(1)] = name

    def take_import(self, what):
        m = re.match(r"(\S+?)\.\{(.*)\}$", what)
        if m:
            for item in m.group(2).split(", "):
                parts = item.split(" as ")
                self.names[parts[-1].strip()] = (m.group(1), parts[0].strip())
            return
        m = re.match(r"(\S+) as (\w+)$", what)
        if m:
            self.modules[m.group(2)] = m.group(1)

    def take_margin(self, line, here):
        first = line.split()[0]
        if here and first == here:
            self.bodies[here].append(line)
            return here
        m = re.match(r"(?:abbrev |unfoldable |opaque |pub |record |data )+(\S+)", line)
        if not m:
            return here
        name = m.group(1)
        self.bodies[name] = [line]
        self.order.append(name)
        return name


def modules():
    found = {}
    for path in sorted(glob.glob(f"{TOP}/crates/*/specs/**/*.antt", recursive=True)):
        crate, rest = re.match(r".*/crates/(\w+)/specs/(.*)\.antt$", path).groups()
        name = rest.replace("/", ".")
        found[f"Rattle.{crate}.specs.{name}"] = Module(crate, name, path)
    return found


# Where a word of a module leads: to a definition of this repository's, or to nothing that is listed here.
def target(all_modules, module, word):
    word = word.rstrip(".:")
    head, _, tail = word.partition(".")
    if head in module.modules and tail:
        return lookup(all_modules, module.modules[head], tail.split(".")[0])
    if head in module.names:
        path, name = module.names[head]
        return lookup(all_modules, path, name)
    name = module.home.get(head, head)
    if name in module.bodies:
        return (f"Rattle.{module.crate}.specs.{module.name}", name)
    return None


def lookup(all_modules, path, name):
    if path in all_modules:
        module = all_modules[path]
        name = module.home.get(name, name)
        if name in module.bodies:
            return (path, name)
        return lookup(all_modules, *module.names[name]) if name in module.names else None
    m = re.match(r"Rattle\.(\w+)\.specs\.declared\.(.*)$", path)
    if m and os.path.isdir(f"{TOP}/crates/{m.group(1)}"):
        return (f"{m.group(1)} declared", re.sub(r"\.TheVariants$", "", m.group(2)).split(".")[-1])
    return None


def reached(all_modules):
    crate, module, name = HEADLINE
    start = (f"Rattle.{crate}.specs.{module}", name)
    seen, due = {start: True}, [start]
    while due:
        path, name = due.pop()
        if path not in all_modules:
            continue
        module = all_modules[path]
        for line in module.bodies[name]:
            for word in WORD.findall(re.sub(r"--.*", "", line)):
                to = target(all_modules, module, word)
                if to and to not in seen:
                    seen[to] = True
                    due.append(to)
    return seen


def crates():
    return [l.split(":")[0] for l in open(f"{TOP}/crates.txt") if ":" in l and not l.startswith("#")]


def main():
    all_modules = modules()
    seen = reached(all_modules)
    rows, many, long = [], 0, 0
    uses = {}
    for path, module in all_modules.items():
        uses[path] = {p for p, _ in module.names.values()} | set(module.modules.values())
    for crate in crates():
        types = sorted(n for p, n in seen if p == f"{crate} declared")
        paths = [p for p in all_modules if all_modules[p].crate == crate and any(q == p for q, _ in seen)]
        paths = in_order(paths, uses)
        for path in paths:
            module = all_modules[path]
            names = [n for n in module.order if (path, n) in seen]
            lines = sum(len(module.bodies[n]) for n in names)
            many += len(names)
            long += lines
            rows.append((crate, module.name, len(names), len(module.order), lines, names))
        if types:
            rows.append((crate, None, len(types), None, None, types))
    print(f"{many} definitions, {long} lines, {sum(1 for r in rows if r[1])} modules of {len({r[0] for r in rows})} crates; and {sum(r[2] for r in rows if not r[1])} types of `src`.\n")
    print("| crate | module | definitions | lines | last of them |\n|---|---|---|---|---|")
    for crate, name, n, of, lines, names in rows:
        if name:
            print(f"| `{crate}` | `{name}` | {n} of {of} | {lines} | {', '.join('`' + x + '`' for x in names[-3:])} |")
        else:
            print(f"| `{crate}` | types | {n} | | {', '.join('`' + x + '`' for x in names)} |")


# Modules of one crate, each after those of them that it uses.
def in_order(paths, uses):
    done = []
    def put(path, above):
        if path in done or path in above:
            return
        for other in sorted(paths):
            if other in uses[path]:
                put(other, above | {path})
        done.append(path)
    for path in sorted(paths):
        put(path, set())
    return done


if __name__ == "__main__":
    main()
