"""What was proved, kept in the user's cache (`folder`): by `make program`, and for kits whose gate keeps no proofs beside the kit.
It isn't kept in the checkout: libraries hold the text of their crates, and the gate refuses sources that no check reads.

A library is kept under the sum of all that it is made from: its files, those of the libraries below it, and the kit. So one
that has changed, or stands on one that has, is proved anew. Used by `program.py` and `check.py`.
"""
import hashlib
import os
import shutil
import subprocess

# What of a crate a proof reads.
PARTS = ("src", "specs", "proofs")
# A library that no run took for this many days is removed.
DAYS = 3


def folder():
    """Where it is kept, for all checkouts: in the folder that PROVED names, or in the user's cache."""
    cache = os.environ.get("XDG_CACHE_HOME") or os.path.expanduser("~/.cache")
    return os.environ.get("PROVED") or f"{cache}/zurkjoft/proved"


def files_of(crate):
    """The files that a proof of the crate reads, with their names in it."""
    for part in PARTS:
        for at, folders, names in sorted(os.walk(f"{crate.folder}/{part}")):
            for name in sorted(names):
                yield os.path.relpath(f"{at}/{name}", crate.folder), f"{at}/{name}"


class Kept:
    """The libraries that earlier runs proved. It answers the calls that a kit's own store has."""

    def __init__(self, folder, kit_line):
        self.folder, self.kit_line, self.sums = folder, kit_line, {}
        os.makedirs(folder, exist_ok=True)

    def key(self, crate):
        """The sum of all that the crate's library is made from."""
        if crate.name not in self.sums:
            found = hashlib.sha256(repr((self.kit_line, crate.name, crate.of_kit)).encode())
            for name, file in files_of(crate):
                with open(file, "rb") as text:
                    found.update(repr((name, text.read())).encode())
            found.update(repr([self.key(it) for it in crate.deps]).encode())
            self.sums[crate.name] = found.hexdigest()
        return self.sums[crate.name]

    def place(self, crate, key):
        return f"{self.folder}/{crate.name}-{key[:32]}"

    def has(self, crate):
        """Whether the crate's library is kept."""
        return crate.makes_rlib() and os.path.isdir(self.place(crate, self.key(crate)))

    def give(self, crate, tests, key):
        """Puts the kept library where the crate's is looked for, if there is one."""
        assert not tests
        kept, note = self.place(crate, key), f"{os.path.dirname(crate.rlib)}/kept"
        if not os.path.isdir(kept):
            return False
        os.utime(kept)
        if os.path.isdir(crate.rlib) and os.path.isfile(note) and open(note, encoding="utf-8").read() == key:
            return True
        self.copy(kept, crate.rlib)
        self.is_from(crate, key)
        return True

    def keep(self, crate, tests, key):
        """Keeps a library that was proved."""
        assert not tests
        kept = self.place(crate, key)
        if crate.makes_rlib() and not os.path.isdir(kept):
            self.copy(crate.rlib, kept)
            self.is_from(crate, key)

    def is_from(self, crate, key):
        with open(f"{os.path.dirname(crate.rlib)}/kept", "w", encoding="utf-8") as note:
            note.write(key)

    @staticmethod
    def copy(library, to):
        """A copy, by hard links where the file system has them there, which is there whole or not at all."""
        part = f"{to}.{os.getpid()}"
        shutil.rmtree(to, ignore_errors=True)
        os.makedirs(os.path.dirname(to), exist_ok=True)
        if subprocess.run(["cp", "-al", library, part], stderr=subprocess.DEVNULL).returncode:
            shutil.rmtree(part, ignore_errors=True)
            subprocess.run(["cp", "-a", library, part], check=True)
        try:
            os.rename(part, to)
        except OSError:
            # another checkout that shares this store was first
            shutil.rmtree(part)

    def is_built(self, crate):
        """A kit's own store notes here that a library fits its sources; here the sum says it."""

    def shrink(self):
        """Lets go of what no run has taken for some days."""
        names = [f"{self.folder}/{it}" for it in os.listdir(self.folder)]
        newest = max((os.stat(it).st_mtime for it in names), default=0)
        for it in names:
            if os.stat(it).st_mtime < newest - DAYS * 86_400:
                shutil.rmtree(it, ignore_errors=True)
