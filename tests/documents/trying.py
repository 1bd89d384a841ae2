"""What the checker's own tests have in common: a small project laid out, and what is said of it."""

import os
import tempfile
import unittest

import check_docs

from .small import FILES


def found(files, writing=False):
    """What the checker says of a project with these files, its numbers made true or not."""
    with tempfile.TemporaryDirectory() as top:
        for name, text in files.items():
            path = os.path.join(top, name)
            os.makedirs(os.path.dirname(path), exist_ok=True)
            with open(path, "w", encoding="utf-8") as file:
                file.write(text)
        if writing:
            check_docs.write(top)
        return check_docs.faults(top)


class Trying(unittest.TestCase):
    """The small project, and copies of it."""

    def named(self, told, name, old=None, new="", **more):
        """The checker says `told` of the project with one file changed, added or taken away."""
        files = dict(FILES, **more)
        if old is None:
            files[name] = new
        elif old == "":
            del files[name]
        else:
            self.assertIn(old, files[name])
            files[name] = files[name].replace(old, new)
        wrong = found(files)
        self.assertTrue(any(told in fault for fault in wrong), wrong)

    def passed(self, **more):
        """The checker says nothing of the project with these files."""
        self.assertEqual(found(dict(FILES, **more)), [])
