"""What a run left in a folder."""
import os

# The program's own in the folder of pages: the index of a mirror and of which STARTs it is, the journal of a run that hasn't ended well, and
# bodies as they came.
OWN = (".wgetr%index", ".wgetr%starts", ".wgetr%journal", ".wgetr%orig")


def files_below(folder, own=False):
    """The files below a folder by their paths there, with what they hold; the program's own only if they are asked for."""
    found = {}
    for at, below, files in os.walk(folder):
        below[:] = [it for it in below if own or it not in OWN]
        for path in (os.path.join(at, it) for it in files if own or it not in OWN):
            with open(path, "rb") as it:
                found[os.path.relpath(path, folder)] = it.read()
    return found
