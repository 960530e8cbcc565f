"""What the gate proved, kept in a folder by the texts that it was proved of. Some kits keep it themselves, and others prove all anew in
each run of `rt ci`."""
import hashlib
import os
import shutil


class Kept:
    """Proved crates of a folder. Of each its own texts, those of the crates below it and the kit are in its stamp."""

    def __init__(self, folder):
        self.folder = os.path.abspath(folder)
        os.makedirs(self.folder, exist_ok=True)

    def place(self, crate, part):
        return os.path.join(self.folder, f"{crate.name}-{crate.stamp()}-{part}")

    def give(self, crate, part):
        """Copies what was made of a crate into its `out/`, and tells whether it is kept."""
        place = self.place(crate, part)
        if not os.path.isdir(place):
            return False
        for name in os.listdir(place):
            to = f"{crate.folder}/out/{name}"
            shutil.rmtree(to, ignore_errors=True)
            copy = shutil.copytree if os.path.isdir(f"{place}/{name}") else shutil.copy2
            os.makedirs(os.path.dirname(to), exist_ok=True)
            copy(f"{place}/{name}", to)
        return True

    def keep(self, crate, part, names):
        """Keeps these of the files in a crate's `out/`, as far as they are there; all of them or none, if it is stopped."""
        place = self.place(crate, part)
        room = f"{place}.{os.getpid()}"
        shutil.rmtree(room, ignore_errors=True)
        os.makedirs(room)
        for name in names:
            made = f"{crate.folder}/out/{name}"
            if os.path.exists(made):
                (shutil.copytree if os.path.isdir(made) else shutil.copy2)(made, f"{room}/{name}")
        try:
            os.rename(room, place)
        except OSError:
            shutil.rmtree(room)


def use(rt, folder):
    """Has the gate take from a folder what is kept there, and keep there what it proves and which wrong bodies it refused."""
    kept, prove, refuse = Kept(folder), rt.Crate.ci, rt.must_fail_all

    def made(crate, tests):
        if tests:
            return [f"{crate.name}_tests{it}" for it in ("", ".o")]
        return [f"{crate.name}{it}" for it in ("", ".o", *rt.BACKENDS.values())] if crate.is_program else ["rlib"]

    def ci(crate, flags, tests):
        part = "tests" if tests else "proof"
        if kept.give(crate, part):
            return 0
        status = prove(crate, flags, tests)
        if not status:
            kept.keep(crate, part, made(crate, tests))
        return status

    def must_fail_all(crate, edits, flags):
        texts = hashlib.sha256()
        for edit in edits:
            with open(edit, "rb") as file:
                texts.update(file.read() + b"\0")
        part = f"edits-{texts.hexdigest()[:16]}"
        if edits and kept.give(crate, part):
            return [(True, f"{crate.name}/{os.path.basename(it)}: refused, as it was before") for it in edits]
        tried = refuse(crate, edits, flags)
        if edits and all(is_refused for is_refused, _ in tried):
            kept.keep(crate, part, [])
        return tried

    rt.Crate.ci, rt.must_fail_all = ci, must_fail_all
