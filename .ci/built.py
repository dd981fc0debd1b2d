"""The libraries of the crates, built, for the scripts beside this one."""
import os
import subprocess
import sys

ROOT = os.path.dirname(os.path.dirname(os.path.abspath(__file__)))


def crates():
    """Gives the crates of crates.txt, each with the libraries that its line names."""
    found = {}
    with open(f"{ROOT}/crates.txt", encoding="utf-8") as lines:
        for line in lines:
            name, colon, uses = line.partition("#")[0].partition(":")
            if colon:
                found[name.split()[0]] = uses.split()
    return found


def below(crate):
    """Gives the crates below a crate, each after those that it uses."""
    every, found = crates(), []
    for name in every[crate]:
        if name in every:
            found += [it for it in [*below(name), name] if it not in found]
    return found


def rlib(crate):
    return f"{ROOT}/crates/{crate}/out/rlib/{crate}.rlib"


def is_of_ci(crate):
    """Gives whether the library is there as `rt ci` built it, from the sources as they are. `rt lib` and `rt check` put a stamp beside theirs."""
    if not os.path.isdir(rlib(crate)) or os.path.exists(f"{os.path.dirname(rlib(crate))}/stamp"):
        return False
    built, files = os.stat(rlib(crate)).st_mtime, [f"{ROOT}/crates.txt"]
    for part in ("src", "specs", "proofs"):
        for at, _, names in os.walk(f"{ROOT}/crates/{crate}/{part}"):
            files += [at, *(f"{at}/{name}" for name in names)]
    return all(os.stat(it).st_mtime <= built for it in files)


def run(words, folder):
    """Runs a command, with what it prints on standard error, and gives whether all was well."""
    sys.stdout.flush()
    return subprocess.run(words, cwd=folder, stdin=subprocess.DEVNULL, stdout=sys.stderr).returncode == 0


def are_there(crate):
    """Sees to it that the libraries of a crate and of those below it are there, built from the sources as they are, and gives whether they are."""
    return all(map(is_of_ci, [*below(crate), crate])) or run(["rt", "lib"], f"{ROOT}/crates/{crate}")
