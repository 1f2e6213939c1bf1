"""The wheel that pip installs. Expected: PEP 427 and PEP 376 for what stands in it."""

import base64
import csv
import hashlib
import subprocess
import sys
import unittest
import zipfile

from support import FOLDER, room

sys.path.insert(0, str(FOLDER))
import backend  # noqa: E402


class Wheel(unittest.TestCase):
    def setUp(self):
        self.folder = room(self)

    def files(self, name):
        """Returns the files of a wheel."""
        with zipfile.ZipFile(self.folder / name) as archive:
            return {path: archive.read(path) for path in archive.namelist()}

    def test_it_has_the_package_and_its_record(self):
        files = self.files(backend.build_wheel(self.folder))
        for part in ("__init__.py", "py.typed", "pytest_plugin.py", "replay.py", "server.py"):
            self.assertEqual(files[f"jutkariq/{part}"], (FOLDER / "jutkariq" / part).read_bytes())
        record = {path: (digest, size) for path, digest, size in csv.reader(files["jutkariq-0.1.0.dist-info/RECORD"].decode().splitlines())}
        self.assertEqual(set(record), set(files))
        for path, (digest, size) in record.items():
            if not path.endswith("/RECORD"):
                wanted = base64.urlsafe_b64encode(hashlib.sha256(files[path]).digest()).rstrip(b"=").decode()
                self.assertEqual((digest, size), (f"sha256={wanted}", str(len(files[path]))))

    def test_it_can_be_imported(self):
        wheel = self.folder / backend.build_wheel(self.folder)
        code = "import jutkariq; from importlib.metadata import version; print(jutkariq.__file__, version('jutkariq'))"
        ran = subprocess.run([sys.executable, "-c", code], env={"PYTHONPATH": str(wheel)}, cwd=self.folder, capture_output=True, text=True, check=True)
        self.assertEqual(ran.stdout.split(), [f"{wheel}/jutkariq/__init__.py", "0.1.0"])

    def test_importing_it_loads_nothing_but_the_standard_library(self):
        code = "import sys; before = set(sys.modules); import jutkariq; print(*{name.partition('.')[0] for name in set(sys.modules) - before})"
        ran = subprocess.run([sys.executable, "-c", code], env={"PYTHONPATH": str(FOLDER)}, capture_output=True, text=True, check=True)
        self.assertFalse({"boto3", "botocore", "pytest", "_pytest", "urllib3"} & set(ran.stdout.split()), ran.stdout)
        self.assertIn("jutkariq", ran.stdout.split())

    def test_the_same_files_make_the_same_wheel(self):
        first = (self.folder / backend.build_wheel(self.folder)).read_bytes()
        self.assertEqual((self.folder / backend.build_wheel(self.folder)).read_bytes(), first)

    def test_an_editable_one_points_to_the_sources(self):
        self.assertEqual(self.files(backend.build_editable(self.folder))["jutkariq.pth"].decode(), f"{FOLDER}\n")

    def test_the_archive_of_the_sources_builds_the_same_wheel(self):
        wheel = (self.folder / backend.build_wheel(self.folder)).read_bytes()
        subprocess.run(["tar", "-xzf", backend.build_sdist(self.folder)], cwd=self.folder, check=True)
        again = self.folder / "again"
        again.mkdir()
        subprocess.run([sys.executable, "-c", f"import backend; backend.build_wheel({str(again)!r})"], cwd=self.folder / "jutkariq-0.1.0", check=True)
        self.assertEqual((again / "jutkariq-0.1.0-py3-none-any.whl").read_bytes(), wheel)


if __name__ == "__main__":
    unittest.main()
