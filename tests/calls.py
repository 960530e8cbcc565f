"""Has a program load tests/calls.c, which notes calls of the system and has some do otherwise."""
import contextlib
import os
import shutil
import subprocess
from unittest import mock

SOURCE = os.path.join(os.path.dirname(os.path.abspath(__file__)), "calls.c")


@contextlib.contextmanager
def noted(folder, *plans):
    """The library is loaded by what is run here, with these plans. Gives a function that returns the calls; none if there is no C
    compiler. The library and its notes are in this folder."""
    compiler = os.environ.get("CC", "cc").split()
    if not shutil.which(compiler[0]):
        yield None
        return
    library, notes = os.path.join(folder, "calls.so"), os.path.join(folder, "calls")
    if not os.path.exists(library):
        subprocess.run([*compiler, "-O1", "-shared", "-fPIC", "-o", library, SOURCE, "-ldl"], check=True)
    with contextlib.suppress(FileNotFoundError):
        os.remove(notes)

    def calls():
        if not os.path.exists(notes):
            return []
        with open(notes, encoding="utf-8") as text:
            return text.read().splitlines()
    with mock.patch.dict(os.environ, {"LD_PRELOAD": library, "CALLS_FILE": notes, "CALLS_PLAN": ",".join(plans)}):
        yield calls
