"""A copy of the repository among the temporary files, for what the gate leaves out: there a script adds to the crates what it
tries, and the checkout stays as it is."""
import os
import shutil
import subprocess
import sys
import tempfile


def copy_repository(name):
    """Copies crates.txt, HANDLES and crates/ into the folder of this name among the temporary files, and gives its path.

    What an earlier call left there of the crates is replaced, but for what checks keep in out/. The libraries that this
    checkout has proved come along, and aren't proved once more where they are the same.
    """
    if not os.path.isfile("crates.txt"):
        raise SystemExit("this runs at the top of the repository, where crates.txt stands")
    to = f"{tempfile.gettempdir()}/{name}"
    os.makedirs(f"{to}/crates", exist_ok=True)
    shutil.copy("HANDLES", to)
    shutil.copy("crates.txt", to)
    for crate in {*os.listdir("crates"), *os.listdir(f"{to}/crates")}:
        folder = f"{to}/crates/{crate}"
        for part in os.listdir(folder) if os.path.isdir(folder) else ():
            if part != "out":
                shutil.rmtree(f"{folder}/{part}") if os.path.isdir(f"{folder}/{part}") else os.remove(f"{folder}/{part}")
        if os.path.isdir(f"crates/{crate}"):
            shutil.copytree(f"crates/{crate}", folder, dirs_exist_ok=True, ignore=kept_work(f"crates/{crate}"))
            copy_library(f"crates/{crate}/out/rlib", f"{folder}/out/rlib")
    return to


def kept_work(crate):
    """What isn't copied of a crate: its own out/, and no folder below that has this name for a function's proof."""
    return lambda at, names: {"out"} & set(names) if at == crate else set()


def copy_library(proved, to):
    """Copies a proved library, unless the same is there."""
    if not os.path.isfile(f"{proved}/stamp") or stamp_of(proved) == stamp_of(to):
        return
    shutil.rmtree(to, ignore_errors=True)
    shutil.copytree(proved, to)


def stamp_of(library):
    """What tells a proved library from another, or None where there is none."""
    try:
        with open(f"{library}/stamp", encoding="utf-8") as stamp:
            return stamp.read()
    except OSError:
        return None


def prove_libraries(to, names):
    """Proves what these crates of the copy stand on, and tells on standard error what isn't proved."""
    proving = [os.path.abspath("tools/prove-libraries"), *names]
    proved = subprocess.run(proving, cwd=to, stdin=subprocess.DEVNULL, stdout=subprocess.PIPE, text=True, errors="replace")
    if proved.returncode:
        print(proved.stdout, end="", file=sys.stderr)
    return proved.returncode == 0
