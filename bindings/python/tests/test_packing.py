"""The package as pip installs it."""
import os
import subprocess
import sys
import tempfile
import unittest
import unittest.mock
import zipfile

import packing


class Packing(unittest.TestCase):
    def test_the_wheel_has_the_package(self) -> None:
        with tempfile.TemporaryDirectory() as folder:
            wheel = os.path.join(folder, packing.build_wheel(folder))
            code = "import cepage, sys; sys.exit(not (cepage.__file__.startswith(sys.argv[1]) and cepage.run('').status == 0))"
            environment = {**os.environ, "PYTHONPATH": wheel, "CEPAGE_LIBRARY": ""}
            done = subprocess.run([sys.executable, "-c", code, wheel], cwd=folder, env=environment, check=False)
            self.assertEqual(done.returncode, 0)

    def test_the_wheel_has_the_licence_texts(self) -> None:
        with tempfile.TemporaryDirectory() as folder, zipfile.ZipFile(os.path.join(folder, packing.build_wheel(folder))) as wheel:
            for name in ("LICENSE-MIT", "LICENSE-APACHE"):
                (packed,) = (it for it in wheel.namelist() if it.endswith(f".dist-info/licenses/{name}"))
                self.assertEqual(wheel.read(packed), (packing.HERE / name).read_bytes())

    def test_the_notices_of_others_go_with_the_shared_object(self) -> None:
        for bound, names in ((False, ["LICENSE-MIT", "LICENSE-APACHE"]), (True, ["LICENSE-MIT", "LICENSE-APACHE", "THIRD-PARTY.md"])):
            with unittest.mock.patch.object(packing, "is_bound", return_value=bound):
                self.assertEqual(list(packing.licences(packing.project())), names)

    def test_its_metadata(self) -> None:
        said = packing.metadata(packing.project())
        self.assertIn("\nName: cepage\nVersion: ", said)
        self.assertIn("\nRequires-Python: >=3.9\n", said)
        self.assertIn("\nLicense-Expression: MIT OR Apache-2.0\nLicense-File: LICENSE-MIT\nLicense-File: LICENSE-APACHE\n", said)
        self.assertIn("\nClassifier: Typing :: Typed\n", said)
        self.assertIn("\n\n# cepage for Python\n", said)
