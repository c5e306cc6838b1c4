#!/usr/bin/env python3
"""Prints the definitions that a definition rests on, file by file with their lines.

    docs/closure.py crates Headlined@oat_tool.Headline [NAME@CRATE.FILE ..]

Lines are those of the definitions alone, without blank lines, comments and imports.
"""
import os, re, sys

WORD = re.compile(r"[^\s(){}\[\];,.]+")
HEAD = re.compile(r"^(?:abbrev |unfoldable )?(?:pub )?(?:(record|data) )?([^\s:(){}]+)")


def imports(lines):
    """Returns each imported name with its module and its name there, and the modules that are named by an alias."""
    names, aliases = {}, {}
    for line in lines:
        found = re.match(r"^(?:pub )?use (Rattle\.[\w.]+?)(?:\.\{(.*)\}| as (\w+))$", line.strip())
        if not found:
            continue
        module, inside, alias = found.groups()
        if alias:
            aliases[alias] = module
        for part in (inside or "").split(","):
            part = part.strip()
            if part:
                own = part.split(" as ")
                names[own[-1].strip()] = (module, own[0].strip())
    return names, aliases


def parse(path):
    """Returns the definitions of a file: each name with its lines, and its imports."""
    with open(path, encoding="utf-8") as file:
        lines = [line.rstrip("\n") for line in file]
    names, aliases = imports(lines)
    defined, current = {}, None
    for line in lines:
        if not line.strip() or line.lstrip().startswith("--") or line.startswith(("use ", "pub use ", "pub mod ", "mod ")):
            continue
        if not line[0].isspace():
            found = HEAD.match(line)
            name = found.group(2) if found else None
            is_start = line.startswith(("abbrev ", "unfoldable ", "pub ", "record ", "data ")) or re.match(r"^[^\s]+ :( |$)", line)
            if is_start and name:
                current = name
                defined.setdefault(current, [])
        if current:
            defined[current].append(line)
            own = re.match(r"^  (?:pub )?(\S+) :", line)
            if own and defined[current][0].split()[0] in ("pub", "data") and " data " in f" {defined[current][0]} ":
                defined.setdefault(f"\0{own.group(1)}", []).append(current)
    constructors = {name[1:]: at[0] for name, at in defined.items() if name.startswith("\0")}
    return {k: v for k, v in defined.items() if not k.startswith("\0")}, constructors, names, aliases


def main(root, starts):
    files, seen, todo = {}, {}, []
    for start in starts:
        name, at = start.split("@")
        crate, file = at.split(".")
        todo.append((crate, file, name))
    while todo:
        crate, file, name = todo.pop()
        path = f"{root}/{crate}/specs/{file}.antt"
        if not os.path.isfile(path):
            continue
        if path not in files:
            files[path] = parse(path)
        defined, constructors, names, aliases = files[path]
        name = constructors.get(name, name)
        if name not in defined or name in seen.setdefault(path, set()):
            continue
        seen[path].add(name)
        for line in defined[name]:
            for word in set(re.findall(r"[^\s(){}\[\];,.]+", line)):
                if word in defined or word in constructors:
                    todo.append((crate, file, word))
                if word in names:
                    module, own = names[word]
                    found = re.match(r"^Rattle\.(\w+)\.specs\.(\w+)$", module)
                    if found:
                        todo.append((found.group(1), found.group(2), own))
            for alias, word in re.findall(r"(\w+)\.([^\s(){}\[\];,.]+)", line):
                found = re.match(r"^Rattle\.(\w+)\.specs\.(\w+)$", aliases.get(alias, ""))
                if found:
                    todo.append((found.group(1), found.group(2), word))
    total, count = 0, 0
    for path in sorted(seen):
        if seen[path]:
            defined = files[path][0]
            lines = sum(len(defined[name]) for name in seen[path])
            total, count = total + lines, count + len(seen[path])
            crate, file = path.split("/")[-3], path.split("/")[-1][:-5]
            print(f"{crate}/specs/{file}\t{lines}\t{' '.join(sorted(seen[path]))}")
    print(f"{sum(1 for path in seen if seen[path])} files, {total} lines, {count} definitions")


main(sys.argv[1], sys.argv[2:])
