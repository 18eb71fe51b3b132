"""What the tests of tools/ share: a tool loaded as a module, a folder for each test, and the last line 'N passed, 0 failed'."""
import importlib.machinery
import importlib.util
import re
import sys
import tempfile
import unittest
from pathlib import Path
from unittest import mock

HERE = Path(__file__).resolve().parent


def load(name):
    """The tool of this name, which is a file without an ending, as a module."""
    loader = importlib.machinery.SourceFileLoader(name, str(HERE / name))
    module = importlib.util.module_from_spec(importlib.util.spec_from_loader(name, loader))
    sys.modules[name] = module
    loader.exec_module(module)
    return module


def logs():
    """What the prover wrote, by the titles of test_unproved.logs."""
    text = (HERE / "test_unproved.logs").read_text(encoding="utf-8")
    return dict(re.findall(r"^== (\w+): .*\n((?:(?!== ).*\n)*)", text, re.M))


class FolderTest(unittest.TestCase):
    """Each test has an empty folder, `root`, of its own, and another for what goes beside it."""

    def setUp(self):
        held, beside = tempfile.TemporaryDirectory(), tempfile.TemporaryDirectory()
        self.addCleanup(held.cleanup)
        self.addCleanup(beside.cleanup)
        self.root = Path(held.name)
        there = mock.patch.object(tempfile, "tempdir", beside.name)
        there.start()
        self.addCleanup(there.stop)

    def write(self, path, text):
        (self.root / path).parent.mkdir(parents=True, exist_ok=True)
        (self.root / path).write_text(text, encoding="utf-8")
        return self.root / path


def run():
    """Runs the tests of the file that was called, and gives its exit status: 1 where one failed or none was found."""
    result = unittest.TextTestRunner(verbosity=1).run(unittest.defaultTestLoader.loadTestsFromModule(sys.modules["__main__"]))
    failed = len({test.id().split(" ")[0] for test, _ in result.failures + result.errors})
    skipped = len(result.skipped)
    if skipped:
        reasons = sorted({reason for _, reason in result.skipped})
        print(f"{skipped} left out: {'; '.join(reasons)}")
    print(f"{result.testsRun - failed - skipped} passed, {failed} failed")
    return 1 if failed or not result.testsRun else 0
