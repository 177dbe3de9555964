"""Where the library is found: by an environment variable, next to the package, or by the system."""

import os
import pathlib
import shutil
import subprocess
import sys
import tempfile
import unittest

import pendratsoa
from pendratsoa import _library

PACKAGE = pathlib.Path(pendratsoa.__file__).parent
SHOWN = """\
import pendratsoa
version = pendratsoa.library_version()
print(pendratsoa._library.library.loaded._name, version)
"""


@unittest.skipUnless(os.path.exists(_library.find()), "the library that is used is no file that is known")
class TestLibrary(unittest.TestCase):
    def setUp(self):
        folder = tempfile.TemporaryDirectory()
        self.addCleanup(folder.cleanup)
        self.folder = pathlib.Path(folder.name)
        self.package = self.folder / "site" / "pendratsoa"
        shutil.copytree(PACKAGE, self.package, ignore=shutil.ignore_patterns("*.so", "__pycache__"))
        self.system = self.folder / "lib"
        self.system.mkdir()

    def copy(self, target):
        """The library once more, at another place."""
        shutil.copy(_library.find(), target)
        return target

    def run_with(self, words=SHOWN, **environment):
        """How a process ends that uses the package in this environment and no other: its two outputs."""
        environment = {"PYTHONPATH": str(self.package.parent), "PYTHONDONTWRITEBYTECODE": "1", **environment}
        command = [sys.executable, "-c", words]
        run = subprocess.run(command, env=environment, cwd=self.folder, capture_output=True, text=True)
        return run.stdout, run.stderr

    def used(self, library):
        """What is printed where this library is used."""
        return f"{library} {pendratsoa.library_version()}\n", ""

    def test_by_the_variable(self):
        library = self.copy(self.folder / "named library.so")
        self.copy(self.package / _library.BUNDLED.name)
        self.assertEqual(self.run_with(PENDRATSOA_LIBRARY=str(library)), self.used(library))

    def test_beside_the_package(self):
        library = self.copy(self.package / _library.BUNDLED.name)
        self.copy(self.system / _library.SONAME)
        self.assertEqual(self.run_with(LD_LIBRARY_PATH=str(self.system)), self.used(library))
        self.assertEqual(self.run_with(PENDRATSOA_LIBRARY=""), self.used(library))

    def test_by_the_system(self):
        self.copy(self.system / _library.SONAME)
        self.assertEqual(self.run_with(LD_LIBRARY_PATH=str(self.system)), self.used(_library.SONAME))

    def test_one_that_comes_after_a_call_has_failed(self):
        words = (
            "import os, pendratsoa\ntry: pendratsoa.type_name(0)\nexcept ImportError: print('missing')\n"
            f"os.environ['PENDRATSOA_LIBRARY'] = {_library.find()!r}\nprint(pendratsoa.type_name(0))\n"
        )
        self.assertEqual(self.run_with(words, PENDRATSOA_LIBRARY="/nowhere"), ("missing\nStart\n", ""))


# what is not there, what is not a library, and another one
NOWHERE, WRONG, OTHER = "/nowhere/libpendratsoa.so", __file__, "libc.so.6"


class TestWithout(unittest.TestCase):
    """What works without the library, and what the first call says."""

    def run_without(self, library, *words):
        """How an interpreter ends with these words where this is the library: its status and its two outputs."""
        environment = {"PYTHONPATH": str(PACKAGE.parent), "PYTHONDONTWRITEBYTECODE": "1", "PENDRATSOA_LIBRARY": library}
        run = subprocess.run([sys.executable, *words], env=environment, capture_output=True, text=True)
        return run.returncode, run.stdout, run.stderr

    def test_it_can_be_imported(self):
        values = "from pendratsoa import COMPILED, messages; print(COMPILED, len(messages.RECORDS), messages.Void())"
        for library in (NOWHERE, WRONG, OTHER):
            status, printed, error = self.run_without(library, "-c", values)
            self.assertEqual((status, error), (0, ""))
            self.assertRegex(printed, r"^(True|False) [0-9]+ Void\(\)$")

    def test_its_pages_can_be_made(self):
        for name, wanted in (("pendratsoa", "class Stream("), ("pendratsoa.messages", "class SetStateCommandMessage(")):
            status, printed, error = self.run_without(NOWHERE, "-m", "pydoc", name)
            self.assertEqual((status, error), (0, ""))
            self.assertIn(wanted, printed)

    def test_the_first_call_says_what_is_missing(self):
        calls = ("library_version()", "Stream()", "messages.Value().encode()", "messages.Value.decode(b'')")
        words = "from pendratsoa import *; from pendratsoa import messages\n"
        words += "".join(f"try: {call}\nexcept ImportError as error: print(error)\n" for call in calls)
        for library in (NOWHERE, WRONG, OTHER):
            status, printed, error = self.run_without(library, "-c", words)
            self.assertEqual((status, error, len(printed.splitlines())), (0, "", len(calls)))
            for line in printed.splitlines():
                self.assertTrue(line.startswith(f"pendratsoa: the library {library} cannot be used: "), line)
                self.assertTrue(line.endswith(f"; {_library._SOURCES}"), line)


if __name__ == "__main__":
    unittest.main()
