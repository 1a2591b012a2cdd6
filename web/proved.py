#!/usr/bin/env python3
"""Proves and builds a static library, by the clang of another folder: proved.py CRATE TOOLCHAIN. The status is 3, and nothing is
done, where the crates below it aren't proved and built from their sources, as ./build leaves them."""
import importlib.util
import os
import sys
from importlib.machinery import SourceFileLoader

TOP = os.path.dirname(os.path.dirname(os.path.abspath(__file__)))


def toolchain():
    """The command rt as a module, as ./build takes it."""
    loader = SourceFileLoader("build", f"{TOP}/build")
    build = importlib.util.module_from_spec(importlib.util.spec_from_loader("build", loader))
    sys.dont_write_bytecode = True
    loader.exec_module(build)
    return build.toolchain()


def main():
    folder, other = map(os.path.realpath, sys.argv[1:])
    rt = toolchain()
    crates = rt.rtlib.crates_below(folder)
    library = crates[-1]
    if not all(it.is_built() for it in crates[:-1]):
        return 3
    rt.Crate.allowed = rt.handles_of(TOP)
    held = rt.rtlib.lock(crates)
    call = library.call
    library.call = lambda *words: call(*[other if it == f"{rt.rtlib.KIT}/toolchain" else it for it in words])
    status = library.build_static([])
    for it in held:
        os.close(it)
    return status


if __name__ == "__main__":
    sys.exit(main())
