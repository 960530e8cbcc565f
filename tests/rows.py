"""The rows of a test: each is told when it is over, and all are counted on the last line, which tests/run adds up."""
import resource


def processor_seconds():
    """How long the children that have ended were on a processor, which other work of this machine hardly changes."""
    used = resource.getrusage(resource.RUSAGE_CHILDREN)
    return used.ru_utime + used.ru_stime


class Rows:
    def __init__(self):
        self.passed, self.failed, self.left_out = 0, 0, 0

    def tell(self, name, wrong):
        """Tells of a row, with what is wrong in it. Whether nothing is."""
        self.passed += not wrong
        self.failed += bool(wrong)
        print(f"{'FAIL' if wrong else 'ok  '} {name}", flush=True)
        for text in wrong[:8]:
            print(f"       {text}", flush=True)
        return not wrong

    def leave_out(self, name, why):
        """Tells of a row that can't be tried on this machine."""
        self.left_out += 1
        print(f"left out: {name} ({why})", flush=True)

    def end(self):
        """Prints the last line, and gives the exit status."""
        if self.left_out:
            print(f"{self.left_out} left out")
        print(f"{self.passed} passed, {self.failed} failed", flush=True)
        return 1 if self.failed or not self.passed else 0
