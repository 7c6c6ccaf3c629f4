# SPDX-License-Identifier: Apache-2.0 OR MIT
"""What the build says if the library is not found."""
import os
import pathlib
import shutil
import subprocess
import sys
import tarfile
import tempfile
import unittest

HERE = pathlib.Path(__file__).resolve().parents[1]
HEADER = HERE.parents[1] / "include" / "cadence.h"


class Build(unittest.TestCase):
    def setUp(self):
        self.top = pathlib.Path(self.enterContext(tempfile.TemporaryDirectory()))
        self.place = self.top / "bindings" / "python"
        self.place.mkdir(parents=True)
        shutil.copy(HERE / "build_wheel.py", self.place)

    def library(self, of="library", **environment):
        """Runs a function of the build, and returns the path that it found and the error that it reported."""
        others = {name: text for name, text in os.environ.items() if name != "CADENCE_LIB"}
        run = subprocess.run([sys.executable, "-c", f"import build_wheel; print(build_wheel.{of}())"], cwd=self.place,
                             env={**others, **environment}, stdout=subprocess.PIPE, stderr=subprocess.PIPE, text=True)
        return run.stdout.strip(), run.stderr

    def put(self, folder):
        (self.top / folder).mkdir(parents=True)
        (self.top / folder / "libcadence_c.a").touch()
        return str((self.top / folder / "libcadence_c.a").resolve())

    def test_beside_itself(self):
        beside = self.put("lib")
        self.assertEqual(self.library(), (beside, ""))

    def test_by_the_variable_first(self):
        self.put("lib")
        other = self.put("other")
        for folder in (str(self.top / "other"), "../../other"):
            self.assertEqual(self.library(CADENCE_LIB=folder), (other, ""))

    def test_the_folder_of_the_processor_first(self):
        self.put("lib")
        own = self.put("lib/unknown-linux-gnu")
        (self.top / "compiler").write_text("#!/bin/sh\necho unknown-linux-gnu\n")
        (self.top / "compiler").chmod(0o755)
        self.assertEqual(self.library(CC=str(self.top / "compiler")), (own, ""))

    def test_the_source_distribution_has_all_but_the_library(self):
        for name in ("pyproject.toml", "README.md"):
            shutil.copy(HERE / name, self.place)
        for name in ("c", "src"):
            shutil.copytree(HERE / name, self.place / name, ignore=shutil.ignore_patterns("__pycache__"))
        (self.top / "include").mkdir()
        shutil.copy(HEADER, self.top / "include")
        self.put("lib")
        run = "import build_wheel; print(build_wheel.build_sdist('.'))"
        name = subprocess.run([sys.executable, "-c", run], cwd=self.place, check=True, stdout=subprocess.PIPE, text=True).stdout.strip()
        with tarfile.open(self.place / name) as tar:
            inside = {member.name.partition("/")[2] for member in tar}
        wanted = {str(path.relative_to(HERE)) for folder in ("c", "src") for path in (HERE / folder).rglob("*.[cph]*") if path.is_file()}
        wanted = {path for path in wanted if "__pycache__" not in path} | {"PKG-INFO", "pyproject.toml", "README.md", "build_wheel.py"}
        self.assertEqual(wanted - inside, set())
        self.assertFalse([path for path in inside if path.endswith((".a", ".so", ".pyc"))])

    def test_nowhere(self):
        for environment, told in (({}, "CADENCE_LIB is not set"), ({"CADENCE_LIB": "/no"}, "CADENCE_LIB is /no")):
            path, error = self.library(**environment)
            self.assertEqual(path, "")
            self.assertIn(told, error)
            self.assertIn("set CADENCE_LIB to the folder that it is in, as in CADENCE_LIB=/opt/cadence_c-0.9.0/lib", error)

    def test_the_header_stands_beside_the_library(self):
        self.put("lib")
        path, error = self.library("header")
        self.assertEqual(path, "")
        self.assertIn("set CADENCE_LIB to the folder lib of the archive, beside which its include stands", error)
        other = self.top / "other"
        (other / "include").mkdir(parents=True)
        (other / "include" / "cadence.h").touch()
        self.put("other/lib")
        found = str((other / "include" / "cadence.h").resolve())
        self.assertEqual(self.library("header", CADENCE_LIB=str(other / "lib")), (found, ""))

    def test_a_library_of_another_version(self):
        shutil.copytree(HERE / "c", self.place / "c")
        (self.top / "include").mkdir()
        shutil.copy(HEADER, self.top / "include")
        path = self.put("lib")
        said = self.library("checked")[1]
        self.assertRegex(said, "libcadence_c.a is not version [0-9.]+ of the library, as .*/cadence.h is: take both from one archive")

        # the module that a build without this check makes can't be imported
        shutil.copy(HERE.parents[1] / "lib" / "libcadence_c.a", path)
        (self.top / "version.c").write_text('const char *cadence_version(void) { return "0.5.0"; }')
        for command in (("gcc", "-fPIC", "-c", "version.c"), ("ar", "r", "lib/libcadence_c.a", "version.o")):
            subprocess.run(command, cwd=self.top, check=True, stderr=subprocess.DEVNULL)
        (self.top / "statsd_proved").mkdir()
        module = self.top / "statsd_proved" / "_core.abi3.so"
        run = f"import build_wheel, pathlib; build_wheel.checked = build_wheel.library; build_wheel.compiled(pathlib.Path({str(module)!r}))"
        subprocess.run([sys.executable, "-c", run], cwd=self.place, check=True)
        ran = subprocess.run([sys.executable, "-c", "import statsd_proved._core"], cwd=self.top, stderr=subprocess.PIPE, text=True,
                             env={**os.environ, "PYTHONPATH": ""})
        self.assertRegex(ran.stderr, "ImportError: statsd_proved is built for version .* and the one in it has version 0.5.0")


if __name__ == "__main__":
    unittest.main()
