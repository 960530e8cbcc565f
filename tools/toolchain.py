"""The toolchain's command `rt` as a module, so that a script can use its parts."""
import functools
import importlib.machinery
import importlib.util
import os
import shutil
import sys
import threading


def load():
    """Loads `rt` as it stands on the PATH; ends the script where it or the top of the repository isn't there."""
    program = shutil.which("rt")
    if not program:
        sys.exit("the toolchain's command rt is needed, and isn't there")
    if not os.path.isfile("crates.txt"):
        sys.exit("this runs at the top of the repository, where crates.txt stands")
    loader = importlib.machinery.SourceFileLoader("rt_parts", os.path.realpath(program))
    module = importlib.util.module_from_spec(importlib.util.spec_from_loader("rt_parts", loader))
    loader.exec_module(module)
    module.rtlib.Crate.stamp = each_once(module.rtlib.Crate.stamp)
    return module


def each_once(stamp):
    """The stamp of a crate, for which each crate below is read once. The toolchain reads it anew for each way that leads down to it,
    and there are thousands."""
    here = threading.local()

    @functools.wraps(stamp)
    def stamped(crate):
        if hasattr(here, "found"):
            if crate.folder not in here.found:
                here.found[crate.folder] = stamp(crate)
            return here.found[crate.folder]
        here.found = {}
        try:
            return stamp(crate)
        finally:
            del here.found

    return stamped
