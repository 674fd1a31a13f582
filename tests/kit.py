#!/usr/bin/env python3
"""usage: tests/kit.py lanes | order NAME .. | unbuilt NAME .. | stamp NAME | object NAME TRIPLE OUT

What the tests ask of the toolchain and `rt` has no command for, through the modules that `rt` itself is made of:

- lanes: how many checks the processors and the free memory take at a time;
- order: the named crates and what they stand on, lowest first;
- unbuilt: those libraries among them whose proof `rt lib` has not kept, or that have changed since;
- stamp: a sum of all that a crate's proof reads, its text, that of the crates below and the toolchain;
- object: a proved program as an object file for another processor, over the work that `rt check` kept.
"""
import functools
import importlib.machinery
import importlib.util
import os
import shutil
import sys
from pathlib import Path

ROOT = Path(__file__).resolve().parent.parent
sys.dont_write_bytecode = True


@functools.cache
def home():
    """the toolchain's folder"""
    rt = shutil.which('rt') or sys.exit("the toolchain's command rt is not in PATH")
    return Path(rt).resolve().parent.parent


@functools.cache
def rt():
    """the command `rt` as a module; `rt().rtlib` is its library"""
    loader = importlib.machinery.SourceFileLoader('rt', str(home() / 'bin' / 'rt'))
    made = importlib.util.module_from_spec(importlib.util.spec_from_loader('rt', loader))
    sys.modules['rt'] = made
    loader.exec_module(made)
    # its first call sets handlers of signals, which a thread may not
    made.rtlib.guarded()
    return made


@functools.cache
def crates():
    """the crates of crates.txt by name, lowest first"""
    found = rt().rtlib.crates_below(str(ROOT))
    return {crate.name: crate for crate in sorted(found, key=lambda crate: len(crate.below()))}


def lanes():
    return max(1, min(rt().processors(), int(rt().free() // 3_000_000_000)))


def order(names):
    """the named crates and all that they stand on, lowest first"""
    wanted = {name for it in names for name in [it, *(below.name for below in crates()[it].below())]}
    return [name for name in crates() if name in wanted]


def unbuilt(names):
    """the libraries among them that `rt lib` has yet to prove as they stand"""
    return [name for name in order(names) if crates()[name].makes_rlib() and not crates()[name].is_built()]


def compile_object(name, triple, out):
    crate = crates()[name]
    crate.out = sys.stderr
    held = rt().rtlib.lock([*crate.below(), crate])
    status = crate.compile(['--target', triple], out)
    for it in held:
        os.close(it)
    return status


def main(words):
    match words:
        case ['lanes']:
            print(lanes())
        case ['order', _, *_]:
            print(*order(words[1:]))
        case ['unbuilt', _, *_]:
            print(*unbuilt(words[1:]))
        case ['stamp', name]:
            print(crates()[name].stamp())
        case ['object', name, triple, out]:
            sys.exit(compile_object(name, triple, os.path.abspath(out)))
        case _:
            sys.exit(__doc__)


if __name__ == '__main__':
    main(sys.argv[1:])
