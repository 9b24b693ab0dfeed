"""Each script refuses a Python below 3.11 in one line."""

import ast
import re
import subprocess
import sys
import tempfile
import unittest
from pathlib import Path

from tests.support import TOP

SCRIPTS = sorted(it for it in (TOP / "scripts").iterdir() if it.is_file())
OLD = "sys.version_info < (3, 11)"


class OldPythonTest(unittest.TestCase):
    def test_it_is_refused(self):
        with tempfile.TemporaryDirectory() as folder:
            for it in SCRIPTS:
                with self.subTest(script=it.name):
                    code = it.read_text(encoding="utf-8")
                    self.assertEqual(code.count(OLD), 1)
                    old = Path(folder) / it.name
                    old.write_text(code.replace(OLD, "True"), encoding="utf-8")
                    run = subprocess.run([sys.executable, "-I", old], capture_output=True, text=True, check=False)
                    self.assertIn(run.returncode, (1, 70))
                    said = re.fullmatch(r"(.*): Python 3\.11 or newer is needed, and this is 3\.\d+\n", run.stderr)
                    self.assertEqual(said and said[1], "try-cmr" if it.name == "build_unproved" else it.name)

    def test_an_old_python_reads_the_scripts(self):
        for it in SCRIPTS:
            with self.subTest(script=it.name):
                ast.parse(it.read_text(encoding="utf-8"), feature_version=(3, 8))


if __name__ == "__main__":
    unittest.main()
