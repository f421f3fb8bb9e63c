"""What the scripts share that build programs without proofs: the crates that they need, and a kit that keeps the program."""
import shutil
from pathlib import Path

ROOT = Path(__file__).resolve().parent.parent
LINKER = '''#!/bin/bash
%s/toolchain/bin/ld.lld "$@" && cp program %s
'''


def crates_below(names):
    """The crates of the repository that crates stand on, and their lines of crates.txt."""
    below = {}
    for line in (ROOT / 'crates.txt').read_text().splitlines():
        name, colon, rest = line.partition(':')
        if colon and not name.startswith('#'):
            below[name] = rest.split()
    out, todo = {}, list(names)
    while todo:
        name = todo.pop()
        if name in below and name not in out:
            out[name] = below[name]
            todo += below[name]
    return out


def links_to_kit(folder, program, clang, linker=LINKER):
    """A folder of links to the kit, but for this clang and a linker that keeps the program."""
    kit = Path(shutil.which('rt')).resolve().parent.parent
    (folder / 'bin').mkdir(parents=True)
    (folder / 'toolchain' / 'bin').mkdir(parents=True)
    for path in kit.iterdir():
        if path.name not in ('bin', 'toolchain'):
            (folder / path.name).symlink_to(path)
    for path in (kit / 'bin').iterdir():
        if path.name in ('rt', 'rtlib.py'):
            shutil.copy(path, folder / 'bin')
        else:
            (folder / 'bin' / path.name).symlink_to(path)
    (folder / 'toolchain' / 'lib').symlink_to(kit / 'toolchain' / 'lib')
    for path in (kit / 'toolchain' / 'bin').iterdir():
        if path.name not in ('clang', 'ld.lld'):
            (folder / 'toolchain' / 'bin' / path.name).symlink_to(path)
    for name, text in (('clang', clang % kit), ('ld.lld', linker % (kit, program))):
        tool = folder / 'toolchain' / 'bin' / name
        tool.write_text(text)
        tool.chmod(0o755)
    return folder / 'bin' / 'rt'
