#!/usr/bin/env python3
"""How much has to be believed: the lines of definitions on which a statement rests.

    bench/definitions.py                      the headline (what the contract of `drust` names) and a coherent cluster
    bench/definitions.py CRATE FILE NAME      what this definition of crates/CRATE/specs/FILE.antt rests on
    bench/definitions.py .. --files           with the lines of each file

A line counts once, and only where a definition that counts names its definition; comments, imports and blank lines don't. Types that the
code declares are counted beside them.
"""
import collections, os, re, sys

ROOT = os.path.join(os.path.dirname(os.path.abspath(__file__)), "..", "crates")
IMPORT = re.compile(r"(pub )?(?:ghost )?use Rattle\.(\S+?)(?:\.\{(.*)\})?(?: as (\S+?))?;?$")
WORDS = re.compile(r"[^\s(){};,\[\]]+")
MARKS = {"pub", "abbrev", "unfoldable", "opaque", "record", "data", "ghost"}


def uncommented(text):
    """A text without its comments."""
    return re.sub(r"(?m)(^|\s)(--|//).*$", "", text)


class File:
    """A file of definitions: what it imports, by name, and the lines of each definition."""

    def __init__(self, path):
        self.names, self.modules, self.passed, self.items = {}, {}, {}, collections.defaultdict(list)
        current = None
        with open(path, encoding="utf-8") as file:
            text = uncommented(file.read())
        base = 0
        for line in text.split("\n"):
            # what stands in a module with parameters stands two blanks further in
            indent = len(line) - len(line.lstrip())
            base = min(base, indent) if line.strip() else base
            if line[base:].startswith("module "):
                base += 2
                continue
            line = line[base:]
            found = IMPORT.match(line.strip())
            if found and not line.startswith(" "):
                is_pub, module, names, other = found.groups()
                if names is None:
                    self.modules[other or module.split(".")[-1]] = module
                    # the last part may be a definition as well as a module
                    self.names.setdefault(other or module.split(".")[-1], (module.rpartition(".")[0], module.split(".")[-1]))
                for name in (names or "").split(","):
                    name, _, new = name.strip().partition(" as ")
                    if name:
                        self.names[new or name] = module, name
                        self.passed[new or name] = module, name
                continue
            if not line.strip() or line.startswith("pub mod"):
                continue
            if not line.startswith((" ", "}", ")")):
                words = [it for it in WORDS.findall(line) if it not in MARKS]
                kept = [it for it in words if it in self.items]
                if words and (MARKS & {*line.split()[:3]} or (len(words) > 1 and words[1] == ":")):
                    current = words[0]
                elif words and words[0] in self.items:
                    current = words[0]
                elif kept:
                    current = kept[0]
            if current is not None:
                self.items[current].append(line)


FILES = {}


def file_at(path):
    if path not in FILES:
        FILES[path] = File(path) if os.path.isfile(path) else None
    return FILES[path]


def resolved(module):
    """The file of a module by the path that an import has, and what is left of the path behind it; through files that pass modules on."""
    parts = module.split(".")
    crate, place = parts[0], parts[1:]
    if not place or place[0] != "specs" or not os.path.isdir(f"{ROOT}/{crate}"):
        return None, crate, []
    folder, left = f"{ROOT}/{crate}/specs", place[1:]
    if left and left[0] == "declared":
        return None, crate, left
    at = folder
    while left:
        path = f"{at}/{left[0]}.antt"
        if os.path.isfile(path) and not (len(left) > 1 and os.path.isfile(f"{at}/{left[0]}/{left[1]}.antt")):
            found = file_at(path)
            if len(left) > 1 and left[1] in found.modules:
                return resolved(".".join([found.modules[left[1]], *left[2:]]))
            return path, crate, left[1:]
        at, left = f"{at}/{left[0]}", left[1:]
    return None, crate, []


def find(module, name, seen=()):
    """Where a name of a module is defined: a file and the name there, or a crate and a type of its code."""
    path, crate, left = resolved(module)
    if left and left[0] == "declared":
        types = [it for it in left[1:] if it[:1].isupper() and it != "TheVariants"]
        return ("type", crate, types[0] if types else name)
    if path is None or (path, name) in seen:
        return None
    if left:
        name = left[0]
    file = file_at(path)
    if name in file.items:
        return ("item", path, name)
    if name in file.passed:
        return find(*file.passed[name], (*seen, (path, name)))
    for items, lines in file.items.items():
        # a constructor or a field
        if any(re.match(rf"\s+(pub )?{re.escape(name)} :", line) for line in lines):
            return ("item", path, items)
    return None


def named(file, text):
    """What a text names: by the imports of its file and its own definitions."""
    for word in WORDS.findall(text):
        word = word.lstrip("λ")
        head, _, rest = word.partition(".")
        if head in file.modules and rest:
            yield find(file.modules[head], rest.split(".")[0])
        if head in file.names:
            yield find(*file.names[head])
        elif word.strip("◌") and not word[0].isalnum():
            # an operator of several parts
            for name, at in file.names.items():
                if "◌" in name and word in name.split("◌"):
                    yield find(*at)


def type_lines(crate, name):
    """The lines of a type that the code of a crate declares."""
    for at, _, files in os.walk(f"{ROOT}/{crate}/src"):
        for it in files:
            with open(f"{at}/{it}", encoding="utf-8") as file:
                found = re.search(rf"(?m)^pub (?:struct|enum|union) {name}\b.*?(?:;\n|^\}}\n|\{{\}}\n|\}}\n)", file.read(), re.S)
            if found:
                return [line for line in found[0].split("\n") if line.strip() and not line.strip().startswith(("//", "#["))]
    return []


def closure(roots):
    """All that these rest on: the definitions by file, and the types of the code."""
    left, items, types = [it for it in roots if it], set(), set()
    while left:
        kind, where, name = found = left.pop()
        if found in items or found in types:
            continue
        if kind == "type":
            types.add(found)
            continue
        items.add(found)
        file = file_at(where)
        text = "\n".join(file.items[name])
        left += [it for it in named(file, text) if it]
        own = {*WORDS.findall(text)} & {*file.items}
        left += [("item", where, it) for it in own]
        for other, lines in file.items.items():
            # constructors of the file's own types
            if any((m := re.match(r"\s+(?:pub )?(\S+) :", line)) and m[1] in text.split() for line in lines):
                left.append(("item", where, other))
    return items, types


def told(title, roots, by_files):
    items, types = closure(roots)
    crates, files = collections.Counter(), collections.Counter()
    for _, path, name in items:
        lines = len(file_at(path).items[name])
        crates[os.path.relpath(path, ROOT).split("/")[0]] += lines
        files[os.path.relpath(path, ROOT)] += lines
    declared = sum(len(type_lines(crate, name)) for _, crate, name in types)
    print(f"{title}: {sum(files.values()):,} lines in {len(files)} files, and {declared} of {len(types)} types of the code")
    print("  " + ", ".join(f"{crate} {lines}" for crate, lines in crates.most_common()))
    if by_files:
        for file, lines in sorted(files.items()):
            print(f"    {lines:5} {file}")


def headline():
    """What the contract of the top call names."""
    path = f"{ROOT}/drust_top/src/top.rt"
    file = File(path)
    with open(path, encoding="utf-8") as it:
        text = it.read()
    contract = re.search(r"(?ms)^pub fn drust<.*?^\{\n", text)[0]
    return list(named(file, contract))


if __name__ == "__main__":
    words = [it for it in sys.argv[1:] if it != "--files"]
    if words:
        told(" ".join(words), [("item", f"{ROOT}/{words[0]}/specs/{words[1]}.antt", words[2])], "--files" in sys.argv)
    else:
        coherent = [("item", f"{ROOT}/coherent_types/specs/ClusterTypes.antt", "IsCoherent")]
        told("the headline", headline(), "--files" in sys.argv)
        told("a coherent cluster", coherent, "--files" in sys.argv)
        told("both together", headline() + coherent, "--files" in sys.argv)
