"""The project's files, below any folder: the checks' own tests lay out small ones."""

import glob
import os


class Project:
    """The files below a folder."""

    def __init__(self, top):
        self.top = top

    def path(self, *parts):
        """The whole path of a file of the project."""
        return os.path.join(self.top, *parts)

    def text(self, *parts):
        """A file's text; None where there is none."""
        path = self.path(*parts)
        if not os.path.isfile(path):
            return None
        with open(path, encoding="utf-8") as file:
            return file.read()

    def octets(self, *parts):
        """A file's bytes; none where there is no file."""
        path = self.path(*parts)
        if not os.path.isfile(path):
            return b""
        with open(path, "rb") as file:
            return file.read()

    def exists(self, path):
        """Whether a file or a folder is there."""
        return os.path.exists(self.path(path))

    def found(self, pattern):
        """The files of a pattern, by their paths from the top."""
        hits = glob.glob(self.path(*pattern.split("/")), recursive=True)
        return sorted(os.path.relpath(hit, self.top).replace(os.sep, "/") for hit in hits)

    def uses(self):
        """The crates by their names, each with those that its line of crates.txt names."""
        lines = (line.split("#")[0] for line in (self.text("crates.txt") or "").splitlines())
        halves = (line.split(":") for line in lines if ":" in line)
        return {name.split()[0]: below.split() for name, below in halves}

    def crates(self):
        """The names of the crates."""
        return list(self.uses())

    def programs(self):
        """The names of the crates that are programs."""
        return [crate for crate in self.crates()
                if self.exists(f"crates/{crate}/src/main.rt")]

    def reached(self):
        """The programs, and every crate that one of them uses, itself or by way of others."""
        uses, found, left = self.uses(), set(), self.programs()
        while left:
            crate = left.pop()
            if crate not in found:
                found.add(crate)
                left += [below for below in uses[crate] if below in uses]
        return found

    def names(self, folder, ending):
        """The names in a folder that have an ending, without it."""
        hits = self.found(f"{folder}/*{ending}")
        return [os.path.basename(hit)[:-len(ending)] for hit in hits]
