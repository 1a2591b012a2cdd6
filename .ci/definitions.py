#!/usr/bin/env python3
"""What has to be read to know what the program promises. Run by hand it prints the list: each file, with its lines of
definitions, which are neither blank nor a comment nor a `use` line, and their sum.

These are the files of definitions (crates/*/specs) that the clauses of `layers` rest on: those that the `ghost use` lines of
the call and of its signature's types and traits name, and in turn all that the `use` lines of these files name. Where a
definition names a type of the code, its declaration in src/ has to be read as well, and what that names. std is left out.
"""
import glob
import os
import re
import sys

USE = re.compile(r"^ *(?:pub )?(?:ghost )?use Rattle\.(lw_\w+)\.specs\.([\w.]+?)(?:\.\{([^}]*)\}| as (\w+))", re.M)
CODE_USE = re.compile(r"^(?:pub )?use ([\w:]+)::(?:\{([^}]*)\}|(\w+));", re.M)
ITEM = re.compile(r"^(?:pub(?:\(crate\))? )?(?:extern \"C\" )?(?:fn|struct|enum|trait|impl)\b(?:[^\n]*[;}]$|.*?^(?:\{\}|\})$)", re.M | re.S)
HEAD = re.compile(r".*?(?=^\{|\{\}$|\Z)", re.M | re.S)
METHOD = re.compile(r"^    (pub )?fn .*?(?=^    \{|;$|\{\}$)", re.M | re.S)
MEMBER = re.compile(r"^    ghost .*?;$", re.M | re.S)
CALL = "crates/lw_top/src/command.rt"
DECLARED = ("struct", "enum", "trait")
KEPT = {}


def text_of(path):
    if path not in KEPT:
        with open(path, encoding="utf-8") as file:
            KEPT[path] = file.read()
    return KEPT[path]


def words_of(text):
    return set(re.findall(r"\w+", re.sub(r"//.*", "", text)))


def names_in(listed):
    """The names that a list after `use` brings in."""
    return [it.split(" as ")[-1].strip() for it in listed.split(",")]


def items_of(path):
    """The items of a file of code: kind, name and text. `impl Model for Region` is of kind `Model`, and named `Region`."""
    for found in ITEM.finditer(text_of(path)):
        head = found[0].split("\n")[0].replace("->", "")
        while re.search(r"<[^<>]*>", head):
            head = re.sub(r"<[^<>]*>", "", head)
        kind, name = re.search(r"\b(fn|struct|enum|trait|impl) (\w+(?:::\w+)*)", head).groups()
        other = re.search(r" for (\w+)", head)
        yield (name.split("::")[-1], other[1], found[0]) if kind == "impl" and other else (kind, name, found[0])


def seen_of(kind, item):
    """The part of an item that other crates see: a head, a declaration, what contracts see of a type, or an impl's heads."""
    if kind == "fn":
        return HEAD.match(item)[0]
    if kind in DECLARED:
        return item
    members = [it for it in MEMBER.findall(item) if not it.startswith(("    ghost use", "    ghost invariant"))]
    return "\n".join(members + [it[0] for it in METHOD.finditer(item) if kind != "impl" or it[1]])


def place_of(crate, dotted):
    """What a dotted name of specs is: a file of definitions, or a file of code and a type in it."""
    parts = [it for it in dotted.split(".") if it != "TheVariants"]
    if parts[0] in ("declared", "contracts"):
        return f"crates/{crate}/src/{'/'.join(parts[1:-1])}.rt", parts[-1]
    return f"crates/{crate}/specs/{'/'.join(parts)}.antt", None


def declared_in(crate, module, name):
    """The file of code in which a name is declared that is taken from a module of this crate, or from another crate."""
    if module[0] == "crate" and len(module) > 1:
        yield f"crates/{crate}/src/{'/'.join(module[1:])}.rt", name
    elif module[0] != "crate":
        crate = module[0]
    path = f"crates/{crate}/src/lib.rt"
    for inner, names, single in CODE_USE.findall(text_of(path)) if len(module) == 1 and os.path.exists(path) else ():
        if name in names_in(names or single):
            inner = inner.split("::")
            yield from declared_in(crate, inner if os.path.isdir(f"crates/{inner[0]}") else ["crate", *inner], name)


def named_in(path, words=None):
    """What these words of a file are, or all that its `use` lines bring in: files of definitions, and types of the code."""
    for crate, dotted, names, alias in USE.findall(text_of(path)):
        if words is None or words.intersection(names_in(names) if names else [alias]):
            yield place_of(crate, dotted)
    if words is not None:
        yield from ((path, name) for kind, name, _ in items_of(path) if kind in DECLARED and name in words)
        for module, names, single in CODE_USE.findall(text_of(path)):
            for name in words.intersection(names_in(names or single)):
                yield from declared_in(path.split("/")[1], module.split("::"), name)


def reached_from(places):
    """These files and types, and all that they rest on."""
    found, waiting = set(), list(places)
    while waiting:
        path, name = place = waiting.pop()
        if place in found or not os.path.exists(path):
            continue
        if name is None:
            found.add(place)
            waiting += named_in(path)
            continue
        seen = [seen_of(kind, item) for kind, its, item in items_of(path) if its == name and kind in (*DECLARED, "Model")]
        if seen:
            found.add(place)
            waiting += named_in(path, words_of("\n".join(seen)) - {name})
    return found


def files_to_read():
    """The files of definitions that the program's call rests on, and the types and traits of the code."""
    head = next(seen_of(kind, item) for kind, name, item in items_of(CALL) if (kind, name) == ("fn", "layers"))
    found = reached_from(named_in(CALL, words_of(head)))
    return sorted(path for path, name in found if name is None), sorted((path, name) for path, name in found if name)


def public_parts(crate):
    """Each item of a crate that other crates see, as a file and the part of its text that they see."""
    lib = f"crates/{crate}/src/lib.rt"
    shown = set()
    for module, names, single in CODE_USE.findall(text_of(lib)):
        for name in names_in(names or single):
            shown.update(declared_in(crate, ["crate", *module.split("::")], name))
    names = {name for _, name in shown}
    for path in glob.glob(f"crates/{crate}/src/**/*.rt", recursive=True):
        for kind, name, item in items_of(path) if "tests" not in path else ():
            is_shown = (path, name) in shown or (path == lib and item.startswith("pub "))
            if is_shown or (kind not in ("fn", *DECLARED) and names.intersection((kind, name))):
                yield path, seen_of(kind, item)


def public_files():
    """The files of definitions that some public contract rests on."""
    crates = [it.split("/")[1] for it in glob.glob("crates/*/src/lib.rt")]
    roots = {place for crate in crates for path, text in public_parts(crate) for place in named_in(path, words_of(text))}
    return {path for path, name in reached_from(roots) if name is None}


def lines_in(path):
    """The lines of definitions of a file."""
    lines = [it.strip() for it in text_of(path).splitlines()]
    return sum(1 for it in lines if it and not it.startswith(("--", "use ", "pub use ", "pub mod ")))


def all_files():
    """All files of definitions, but those that name modules alone."""
    return sorted(it for it in glob.glob("crates/*/specs/**/*.antt", recursive=True) if lines_in(it))


def main():
    os.chdir(os.path.join(os.path.dirname(os.path.abspath(__file__)), ".."))
    files, types = files_to_read()
    for path in files:
        print(f"{lines_in(path):6} {path}")
    print(f"{sum(map(lines_in, files)):6} lines of definitions in {len(files)} files, and these types of the code:")
    for path, name in types:
        print(f"       {path}: {name}")


if __name__ == "__main__":
    main()
