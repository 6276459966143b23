"""Programs for calls that no command makes: small ones over the crates as they stand here, each proved and built in a folder of its own,
and those that are crates here."""
import os
import shutil
import subprocess
import sys

TOP = os.path.dirname(os.path.dirname(os.path.realpath(__file__)))


def needed(lines, names):
    """The crates of these names and those that they stand on, by the lines of crates.txt. Crates of the kit have no line."""
    stands_on = dict(line.split(":") for line in lines if ":" in line and not line.startswith("#"))
    found, left = set(), list(names)
    while left:
        name = left.pop()
        if name in stands_on and name not in found:
            found.add(name)
            left += stands_on[name].split()
    return found


def build(room, name, dependencies, program, files=()):
    """Makes the program in a repository of its own in this folder, with copies of the crates that it stands on, and returns its path."""
    source = f"{room}/crates/{name}/src"
    os.makedirs(source)
    with open(f"{TOP}/crates.txt", encoding="utf-8") as file:
        lines = file.read().splitlines()
    for crate in needed(lines, dependencies.split()):
        shutil.copytree(f"{TOP}/crates/{crate}", f"{room}/crates/{crate}", ignore=shutil.ignore_patterns("incremental"))
    with open(f"{room}/crates.txt", "w", encoding="utf-8") as file:
        kept = [line for line in lines if os.path.isdir(f"{room}/crates/{line.split(':')[0]}")]
        file.write("\n".join([*kept, f"{name}: {dependencies}", ""]))
    with open(f"{source}/main.rt", "w", encoding="utf-8") as file:
        file.write(program)
    for path in files:
        shutil.copy(f"{TOP}/{path}", source)
    # It is run once it is built, with no word, which is its first refusal.
    built = subprocess.run(["rt", "run", "--jobs", "1"], cwd=f"{room}/crates/{name}", capture_output=True, text=True)
    path = f"{room}/crates/{name}/out/{name}"
    if not os.access(path, os.X_OK):
        sys.exit(built.stdout + built.stderr)
    return path


def own(name):
    """Proves and builds a program that is a crate here, and returns its path. It is run once, on nothing."""
    folder = f"{TOP}/crates/{name}"
    built = subprocess.run(["rt", "run", "--jobs", "1"], cwd=folder, stdin=subprocess.DEVNULL, capture_output=True, text=True)
    if built.returncode != 0:
        sys.exit(built.stdout + built.stderr)
    return f"{folder}/out/{name}"
