"""Which library is loaded, from where, and which are turned away. Made-up libraries tell by their version which one it was."""

import os
import pathlib
import shutil
import subprocess
import sys
import tempfile
import unittest

from tiedraw import __version__, _library, _load

PACKAGE = pathlib.Path(_load.__file__).resolve().parent
REAL = os.path.realpath(_library.LIBRARY._name)
SONAME = _load.SONAME
MAJOR, MINOR, _ = map(int, __version__.split("."))
TELL = "import tiedraw; print(tiedraw.library_version())"
ON_RECORDS = ["pick_recorded", "read_record", "order"]
ON_THE_MAP = ["pick_by_map", "within"]
ON_CARDS = ["check", "read", "bad_places", "write"]
CALLS = [*ON_CARDS, "step", "step_back", "draw", "fill", "pick", *ON_RECORDS, "margin", *ON_THE_MAP, "count_bits"]


def patched(patch):
    """A version that belongs to this binding."""
    return f"{MAJOR}.{MINOR}.{patch}"


def number_of(version):
    major, minor, patch = map(int, version.split("."))
    return major * 1000000 + minor * 1000 + patch


class Loading(unittest.TestCase):
    def setUp(self):
        holder = tempfile.TemporaryDirectory()
        self.addCleanup(holder.cleanup)
        self.folder = pathlib.Path(holder.name)
        self.root = self.folder / "repository"
        self.site = self.root / "bindings" / "python"
        shutil.copytree(PACKAGE, self.site / "tiedraw", ignore=shutil.ignore_patterns("__pycache__", "*.so*"))

    def made_up(self, file, version, calls=CALLS):
        """A library that tells this version, or none, and refuses all cards by 29."""
        file.parent.mkdir(parents=True, exist_ok=True)
        source = self.folder / "made_up.c"
        told = [f"unsigned tiedraw_version(void) {{ return {number_of(version)}; }}"] if version else []
        source.write_text("\n".join(told + [f"unsigned char tiedraw_{call}(void) {{ return 29; }}" for call in calls]))
        subprocess.run(["gcc", "-shared", "-fPIC", str(source), "-o", str(file)], check=True)
        return str(file)

    def python(self, program=TELL, site=None, **variables):
        kept = {name: value for name, value in os.environ.items() if name != _load.VARIABLE}
        return subprocess.run(
            [sys.executable, "-B", "-c", program],
            cwd=self.folder,
            env={**kept, "PYTHONPATH": str(site or self.site), **variables},
            capture_output=True,
            text=True,
        )

    def loads(self, version, **variables):
        done = self.python(**variables)
        self.assertEqual((done.stdout, done.stderr), (version + "\n", ""))

    def fails(self, *texts, **variables):
        done = self.python(**variables)
        self.assertNotEqual(done.returncode, 0)
        for text in ["\nImportError: ", *texts]:
            self.assertIn(text, done.stderr)


class Finding(Loading):
    def test_the_order(self):
        beside, built, system = self.site / "tiedraw", self.root / "target" / "lib", self.folder / "system"
        (self.root / "include").mkdir()
        (self.root / "include" / "tiedraw.h").touch()
        named = self.made_up(self.folder / "named.so", patched(1))
        places = [beside / SONAME, beside / "libtiedraw.so", built / SONAME, built / "libtiedraw.so", system / SONAME]
        for patch, place in enumerate(places, 2):
            self.made_up(place, patched(patch))
        self.loads(patched(1), TIEDRAW_LIBRARY=named, LD_LIBRARY_PATH=str(system))
        for patch, place in enumerate(places, 2):
            self.loads(patched(patch), LD_LIBRARY_PATH=str(system), TIEDRAW_LIBRARY="")
            place.unlink()
        self.fails("is not found", "TIEDRAW_LIBRARY: not set", *map(str, places[:4]), f"{SONAME}, by the system")

    def test_a_named_file_is_the_only_one(self):
        self.made_up(self.site / "tiedraw" / SONAME, patched(0))
        self.fails("TIEDRAW_LIBRARY names none.so, which can't be loaded", "No such file", TIEDRAW_LIBRARY="none.so")
        text = self.folder / "text.so"
        text.write_text("no library")
        self.fails(f"TIEDRAW_LIBRARY names {text}", "file too short", TIEDRAW_LIBRARY=str(text))
        self.made_up(self.folder / "here.so", patched(9))
        self.loads(patched(9), TIEDRAW_LIBRARY="here.so")

    def test_a_file_that_is_found_and_broken_is_told(self):
        broken = self.site / "tiedraw" / SONAME
        broken.write_text("no library")
        self.fails(f"{broken} can't be loaded", "file too short")

    def test_a_folder_for_all_is_no_repository(self):
        self.made_up(self.root / "target" / "lib" / SONAME, patched(1))
        self.fails("is not found")
        (self.root / "include").mkdir()
        (self.root / "include" / "tiedraw.h").touch()
        self.loads(patched(1))
        self.root.chmod(0o1777)
        self.fails("is not found")

    def test_any_folder_will_do(self):
        for package in ["/", "/tiedraw", "/opt/tiedraw"]:
            self.assertEqual(_load.candidates(pathlib.Path(package))[0], pathlib.Path(package, SONAME))
        for parent in {tempfile.gettempdir(), "/"}:
            if not os.access(parent, os.W_OK):
                continue
            with tempfile.TemporaryDirectory(dir=parent) as site:
                shutil.copytree(self.site / "tiedraw", pathlib.Path(site, "tiedraw"))
                done = self.python(site=site, TIEDRAW_LIBRARY=REAL)
                self.assertEqual((done.stdout, done.stderr), (_library.VERSION + "\n", ""))


class Versions(Loading):
    def test_the_patch_may_differ(self):
        self.loads(patched(41), TIEDRAW_LIBRARY=self.made_up(self.folder / "patched.so", patched(41)))

    def test_major_and_minor_may_not(self):
        for version in [f"{MAJOR}.{MINOR + 1}.0", f"{MAJOR}.{MINOR - 1}.0", f"{MAJOR + 1}.{MINOR}.0", "0.0.0"]:
            file = self.made_up(self.folder / f"{version}.so", version)
            self.fails(f"library {version}, binding {__version__}: they belong together where", file, TIEDRAW_LIBRARY=file)

    def test_a_library_without_a_version(self):
        file = self.made_up(self.folder / "old.so", None)
        self.fails(f"{file} has no tiedraw_version: it is older than binding {__version__}", TIEDRAW_LIBRARY=file)

    def test_a_library_without_a_call(self):
        for lacking in CALLS:
            there = [call for call in CALLS if call != lacking]
            file = self.made_up(self.folder / f"no_{lacking}.so", patched(0), there)
            self.fails(f"{file} has no tiedraw_{lacking}, which binding {__version__} needs", TIEDRAW_LIBRARY=file)

    def test_an_unknown_refusal_is_no_crash(self):
        file = self.made_up(self.folder / "later.so", patched(0))
        program = """if True:
            import tiedraw
            try:
                tiedraw.check(b"")
            except tiedraw.Refused as refused:
                print(refused.number, refused.refusal, refused)
            """
        done = self.python(program, TIEDRAW_LIBRARY=file)
        self.assertEqual((done.stdout, done.stderr), (f"29 None refusal 29: unknown to this binding, version {__version__}\n", ""))


if __name__ == "__main__":
    unittest.main()
