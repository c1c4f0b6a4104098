"""What pyproject.toml makes a package of, by setuptools from a copy of this folder; pip does the rest."""

import os
import pathlib
import shutil
import subprocess
import sys
import tempfile
import unittest

import tiedraw
from tiedraw import _library

HERE = pathlib.Path(__file__).resolve().parent

# what pip asks setuptools for, but the packing into a wheel, for which setuptools before 70.1 needs the package `wheel`
BUILD = """
import sys
from setuptools import Distribution
distribution = Distribution({"script_name": "setup.py"})
distribution.parse_config_files()
build = distribution.get_command_obj("build_py")
build.build_lib = sys.argv[1]
build.ensure_finalized()
build.run()
print(distribution.get_name(), distribution.get_version(), distribution.python_requires)
"""


def reads_pyproject():
    asked = "import setuptools; assert int(setuptools.__version__.split('.')[0]) >= 61"
    return subprocess.run([sys.executable, "-c", asked], capture_output=True).returncode == 0


def files(folder):
    return sorted(str(file.relative_to(folder)) for file in folder.rglob("*") if file.is_file())


@unittest.skipUnless(reads_pyproject(), "needs setuptools 61 or later")
class Install(unittest.TestCase):
    def run_python(self, *words, cwd):
        library = os.path.realpath(_library.LIBRARY._name)
        environment = {**os.environ, "PYTHONDONTWRITEBYTECODE": "1", "TIEDRAW_LIBRARY": library}
        told = subprocess.run([sys.executable, *words], cwd=cwd, env=environment, capture_output=True, text=True)
        self.assertEqual(told.returncode, 0, told.stderr)
        return told.stdout

    def test_built_it_is_the_same_package(self):
        with tempfile.TemporaryDirectory() as holder:
            source, target = pathlib.Path(holder, "source"), pathlib.Path(holder, "target")
            shutil.copytree(HERE / "tiedraw", source / "tiedraw", ignore=shutil.ignore_patterns("__pycache__"))
            shutil.copy(HERE / "pyproject.toml", source)
            told = self.run_python("-c", BUILD, str(target), cwd=source)
            self.assertEqual(told.splitlines()[-1], f"tiedraw {tiedraw.__version__} >=3.9")
            self.assertEqual(files(target / "tiedraw"), files(source / "tiedraw"))
            self.assertIn("py.typed", files(target / "tiedraw"))
            self.assertEqual(self.run_python("-m", "tiedraw", "check", "00", cwd=target), "accepted\n")


if __name__ == "__main__":
    unittest.main()
