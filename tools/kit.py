"""The kit's own `rt` as a module, for the tools that check or build as it does: its crates, the
words that it calls the prover with, how it applies an edit, how it shares processors and memory.
No tool of its own; but `tools/kit.py static CRATE FILE` is what tools/archive calls in the gate: it
builds that static library over the libraries that `rt ci` has just left in crates/*/out, and proves
the crate itself on the way."""
import importlib.machinery
import importlib.util
import os
import shutil
import subprocess
import sys

ROOT = os.path.dirname(os.path.dirname(os.path.abspath(__file__)))


def loaded(tool):
    """The module; a tool that lacks rt stops with status 2."""
    found = shutil.which('rt')
    if not found:
        print(f'{tool}: rt, the Rattle toolchain, is missing; nothing can be proved without it', file=sys.stderr)
        sys.exit(2)
    loader = importlib.machinery.SourceFileLoader('rt', os.path.realpath(found))
    made = importlib.util.module_from_spec(importlib.util.spec_from_loader('rt', loader))
    sys.modules['rt'] = made
    loader.exec_module(made)
    made.rtlib.guarded()  # its first call sets a signal's handler, which only the main thread may
    return made


def crates(rt, root=ROOT):
    """The crates of a checkout by name, lowest first."""
    found = rt.rtlib.crates_below(root)
    return {it.name: it for it in sorted(found, key=lambda it: len(it.below()))}


def main(arguments):
    if len(arguments) != 3 or arguments[0] != 'static':
        print('kit: wanted: tools/kit.py static CRATE FILE', file=sys.stderr)
        return 2
    rt = loaded('kit')
    crate = crates(rt)[arguments[1]]
    kit = rt.rtlib.KIT
    words = [rt.rtlib.RATTLE, 'build', *crate.words(['--jobs', '2'], keeps=False), '--toolchain', f'{kit}/toolchain', '--backend', 'llvm']
    words += ['-o', os.path.abspath(arguments[2])]
    return subprocess.run([*rt.rtlib.guarded(), *words], cwd=crate.folder, stdin=subprocess.DEVNULL).returncode


if __name__ == '__main__':
    sys.dont_write_bytecode = True
    sys.exit(main(sys.argv[1:]))
