"""The package, installed by pip into a folder of its own: all modules are there, its command runs, and its types are announced."""
import importlib.util
import os
import shutil
import subprocess
import sys
import tempfile
import unittest
from pathlib import Path

from support import HERE, PATIENCE

PACKAGE = HERE.parent


class Installed(unittest.TestCase):
    def test_it_is_installed_whole(self):
        for name in ("pip", "setuptools", "wheel"):
            if importlib.util.find_spec(name) is None:
                self.skipTest(f"{name} is not there")
        with tempfile.TemporaryDirectory() as folder:
            # a build leaves files beside the sources, so it gets a copy of them
            copy, target = Path(folder, "python"), Path(folder, "target")
            shutil.copytree(PACKAGE, copy, ignore=shutil.ignore_patterns("__pycache__", "tests", "*.egg-info", "build"))
            done = subprocess.run(
                [sys.executable, "-m", "pip", "install", "--quiet", "--no-build-isolation", "--no-deps", "--no-index", "--target", target, copy],
                capture_output=True, text=True, timeout=120 * max(1, PATIENCE))
            self.assertEqual(done.returncode, 0, done.stdout + done.stderr)
            here = {path.name for path in (PACKAGE / "src" / "colmjurr").iterdir()} - {"__pycache__"}
            self.assertEqual({path.name for path in (target / "colmjurr").iterdir()} - {"__pycache__"}, here)
            self.assertIn("py.typed", here)
            environment = {**os.environ, "PYTHONPATH": str(target)}
            done = subprocess.run([target / "bin" / "colmjurr", "--version"], capture_output=True, text=True, env=environment, cwd=folder, timeout=60 * max(1, PATIENCE))
            version = (PACKAGE / "src" / "colmjurr" / "version.py").read_text().split('"')[1]
            self.assertEqual((done.returncode, done.stdout), (0, version + "\n"), done.stderr)


if __name__ == "__main__":
    unittest.main()
