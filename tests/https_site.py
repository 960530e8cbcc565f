"""One site on two hosts, to be retrieved over http and over https, and runs that are compared."""
import collections
import os
import subprocess
import sys
import tempfile

sys.dont_write_bytecode = True
from folders import files_below
from rows import Rows
from servers import response

PATIENCE = 300
# What a run ended with: its exit status, what it wrote on its streams, and its files.
Ran = collections.namedtuple("Ran", "status report errors files")


def page(*links):
    return response("".join(f'<a href="{link}">' for link in links).encode(), "text/html")


def redirect(location, status="302 Found"):
    return response(b"", status=status, more=f"Location: {location}\r\n")


def pages_of(one, two):
    """The answers of two hosts by host and path: links of each form, redirects on one host and between both, pages that are reached
    from the other host alone, one that isn't there, and a robots file that forbids one."""
    return {
        (one, "/"): page("a.html", "/d/", f"//{two}/", f"http://{two}/late.html", "no/x", "moved", "across", "none", "q?x=1&y=2"),
        (one, "/robots.txt"): response(b"User-agent: *\nDisallow: /no/\n"),
        (one, "/a.html"): page("./", "d/b.txt"), (one, "/d/"): page(f"//{two}/picture.png", "../a.html#x"),
        (one, "/d/b.txt"): response(b"b" * 5000), (one, "/moved"): redirect("/d/c%20c.html"), (one, "/d/c%20c.html"): page("b.txt"),
        (one, "/across"): redirect(f"http://{two}/there", "301 Moved"), (one, "/q?x=1&y=2"): response(b"q"),
        (one, "/no/x"): response(b"forbidden"), (two, "/there"): page(f"http://{one}/back.html"), (one, "/back.html"): page(),
        (two, "/"): page("/late.html"), (two, "/late.html"): page(), (two, "/picture.png"): response(b"\x89PNG", "image/png"),
    }


# The words that retrieve all of it from its start, and the last line of the report.
ALL = ("-r", "-l", "inf", "-H")
LAST = "fetched 14 kept 11 refused 1 failed 1"


class Runs(Rows):
    """Runs of the program, and the rows that look at them."""

    def __init__(self, program, folder):
        super().__init__()
        self.program, self.folder = os.path.abspath(program), folder

    def run(self, *words, given=b"", **variables):
        """Runs the program with four workers in a folder of its own, with these variables in its environment."""
        here = tempfile.mkdtemp(dir=self.folder)
        run = subprocess.run([self.program, "--workers", "4", *words], input=given, capture_output=True, cwd=here,
                             env=os.environ | variables, timeout=PATIENCE, check=False)
        return Ran(run.returncode, run.stdout.decode(), run.stderr.decode(), files_below(here))

    def row(self, name, got, wanted):
        self.tell(name, [] if got == wanted else [f"{got}", f"and not {wanted}"])
