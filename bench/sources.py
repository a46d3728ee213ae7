"""A copy of the repository, for what is to leave it as it is."""
import hashlib
import os
import pathlib
import shutil
import subprocess
import sys

TOP = os.path.dirname(os.path.dirname(os.path.abspath(__file__)))


def copied(folder):
    """Copies the sources, and the libraries that earlier checks built of them."""
    shutil.copytree(TOP, folder, ignore=shutil.ignore_patterns('.git', 'out', 'target'))
    for crate in os.listdir(f'{TOP}/crates'):
        if os.path.isdir(f'{TOP}/crates/{crate}/out/rlib'):
            shutil.copytree(f'{TOP}/crates/{crate}/out/rlib', f'{folder}/crates/{crate}/out/rlib')


def libraries_of(uses):
    """The crates of the repository that these words of crates.txt name, and those below them."""
    found, left = set(), uses.split()
    with open(f'{TOP}/crates.txt') as file:
        below = {
            line.split()[0].rstrip(':'): line.split(':')[1]
            for line in file
            if ':' in line and not line.startswith('#')
        }
    while left:
        name = left.pop()
        if name in below and name not in found:
            found.add(name)
            left += below[name].split()
    return sorted(found)


def checksum(name, uses, text, is_over_libraries):
    """A checksum of all that a program is made of: its text, the libraries below it, and the kit."""
    made_of = hashlib.sha256(f'{name} {uses} '.encode())
    made_of.update(subprocess.run(['rt', 'version'], capture_output=True, check=True).stdout)
    made_of.update(pathlib.Path(text).read_bytes())
    for library in libraries_of(uses) if is_over_libraries else []:
        for folder in ('src', 'specs', 'proofs'):
            for path in sorted(
                path
                for path in pathlib.Path(f'{TOP}/crates/{library}/{folder}').rglob('*')
                if path.is_file()
            ):
                made_of.update(str(path.relative_to(TOP)).encode() + path.read_bytes())
    return made_of.hexdigest()


def built_program(folder, name, uses, text, is_over_libraries):
    """Builds a Rattle program in this folder, over a copy of the repository's libraries or without: proves it, and gives its path, or none. One that
    an earlier run built there of the same sources stays."""
    program, note = f'{folder}/{name}', f'{folder}/{name}.sum'
    made_of = checksum(name, uses, text, is_over_libraries)
    if (
        os.path.exists(program)
        and os.path.exists(note)
        and pathlib.Path(note).read_text() == made_of
    ):
        return program
    shutil.rmtree(f'{folder}/copy', ignore_errors=True)
    crate = f'{folder}/copy/crates/{name}'
    if is_over_libraries:
        copied(f'{folder}/copy')
    if not os.path.exists(crate):
        os.makedirs(f'{crate}/src')
        with open(f'{folder}/copy/crates.txt', 'a') as crates:
            crates.write(f'{name}: {uses}\n')
    shutil.copy(text, f'{crate}/src/main.rt')
    # rt builds a program by running it, here without arguments, where it only says how to use it.
    subprocess.run(['rt', 'run'], cwd=crate, stdin=subprocess.DEVNULL, stdout=sys.stderr)
    if not os.path.exists(f'{crate}/out/{name}'):
        return None
    shutil.copy(f'{crate}/out/{name}', program)
    pathlib.Path(note).write_text(made_of)
    shutil.rmtree(f'{folder}/copy')
    return program
