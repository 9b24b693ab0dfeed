"""The packages of the built program in a bare Debian, which has no kit.

In the folder scripts, `python3 -m unittest -v tests.bare_root` runs these tests as root. debootstrap first makes the Debian, which takes
minutes and a network. CMR_BARE_ROOT names one that it has made before (`debootstrap --variant=minbase bookworm DIR`); each test copies it.
"""

import os
import shutil
import subprocess
import tempfile
import unittest
from pathlib import Path

from building.packing.origin import record_now
from tests.support import TOP

SUITE, MIRROR = "bookworm", "http://deb.debian.org/debian"
# A program without proofs, and its Python package, say so.
IS_PROVED, IS_UNPROVED = (record_now(proved=it) is not None for it in (True, False))

RUNS = """\
cd /root/examples
cmr tu -D /root/tree assignment.txt
cmr check assignment.txt /root/tree
cmr-model assignment.mps > /root/report
head -n 1 /root/report
{python} -c "import cmr_matrices as c; print(c.find_program(), c.is_totally_unimodular([[1, 1], [0, 1]]).verdict)"
"""
PRINTED = """\
totally unimodular: yes
0 network 6x9
accepted: yes
totally unimodular: yes
{program} yes
"""
LEFT = "find / -xdev -name '*cmr*' -not -path '/proc/*' -not -path '/root/packages/*'; find {folder} -name __pycache__ -empty"
GET = "apt-get install --yes --quiet"


@unittest.skipUnless(IS_PROVED or IS_UNPROVED, "the program, built of these sources, is not available")
@unittest.skipUnless(os.geteuid() == 0, "only root may make a root")
class BareRoot(unittest.TestCase):
    @classmethod
    def setUpClass(cls):
        folder = tempfile.TemporaryDirectory()
        cls.addClassCleanup(folder.cleanup)
        cls.folder = Path(folder.name)
        words = [TOP / "scripts" / "package", "--out", cls.folder / "packages", *([] if IS_PROVED else ["--unproved"])]
        subprocess.run(words, check=True, capture_output=True)
        given = os.environ.get("CMR_BARE_ROOT")
        cls.made = Path(given) if given else cls.folder / "made"
        if given is None:
            cls.make()

    @classmethod
    def make(cls):
        if shutil.which("debootstrap") is None:
            raise unittest.SkipTest("debootstrap is not available")
        ran = subprocess.run(["debootstrap", "--variant=minbase", SUITE, cls.made, MIRROR], capture_output=True, text=True, check=False)
        if ran.returncode:
            raise unittest.SkipTest(f"debootstrap has failed: {(ran.stdout + ran.stderr).strip().splitlines()[-1]}")

    def setUp(self):
        self.root = self.folder / self._testMethodName
        subprocess.run(["cp", "--archive", self.made, self.root], check=True)
        self.addCleanup(shutil.rmtree, self.root)
        shutil.copy("/etc/resolv.conf", self.root / "etc" / "resolv.conf")
        shutil.copytree(self.folder / "packages", self.root / "root" / "packages")
        shutil.copytree(TOP / "examples", self.root / "root" / "examples")
        if self.ran("apt-get update").returncode:
            self.skipTest("apt-get finds no network")

    def ran(self, text):
        """A run of a text of the shell in the root."""
        apart = ["unshare", "--mount", "--pid", "--fork", "--kill-child", f"--mount-proc={self.root}/proc"]
        settings = ["PATH=/root/.local/bin:/usr/sbin:/usr/bin:/sbin:/bin", "HOME=/root", "LC_ALL=C.UTF-8", "DEBIAN_FRONTEND=noninteractive"]
        words = [*apart, "chroot", self.root, "/usr/bin/env", "-i", *settings, "sh", "-ec", text]
        return subprocess.run(words, capture_output=True, text=True, check=False)

    def output(self, text):
        ran = self.ran(text)
        self.assertEqual(ran.returncode, 0, f"{text}\n{ran.stdout}{ran.stderr}")
        return ran.stdout

    def all_run(self, program, start="", python="python3"):
        self.assertEqual(self.output(start + RUNS.format(python=python)), PRINTED.format(program=program))

    def test_the_debian_package(self):
        self.assertEqual(self.ran("command -v python3").returncode, 127)
        self.output(f"{GET} /root/packages/*.deb")
        self.all_run("/usr/bin/cmr")
        self.assertIn("__init__.cpython-3", self.output("ls /usr/lib/python3/dist-packages/cmr_matrices/__pycache__"))
        self.output("apt-get purge --yes cmr")
        self.assertEqual(self.output(LEFT.format(folder="/usr/lib/python3/dist-packages")), "")

    def test_the_tarball(self):
        self.output("tar -xzf /root/packages/*.tar.gz -C /opt && mv /opt/cmr-* /opt/cmr")
        # The program needs no Python.
        self.assertEqual(self.ran("command -v python3").returncode, 127)
        self.assertEqual(self.output("/opt/cmr/bin/cmr tu /root/examples/assignment.txt"), "totally unimodular: yes\n0 network 6x9\n")
        self.output(f"{GET} --no-install-recommends python3 python3-swiglpk")
        self.all_run("/opt/cmr/bin/cmr", "export PATH=/opt/cmr/bin:$PATH PYTHONPATH=/opt/cmr/lib/cmr/python\n")
        self.output("rm -r /opt/cmr")
        self.assertEqual(self.output(LEFT.format(folder="/opt")), "")

    def test_the_wheel(self):
        self.output(f"{GET} --no-install-recommends python3-pip python3-swiglpk python3-venv")
        self.output("python3 -m venv --system-site-packages /opt/env")
        self.output("/opt/env/bin/pip install --no-index /root/packages/*.whl")
        self.all_run("/opt/env/bin/cmr", "export PATH=/opt/env/bin:$PATH\n", "/opt/env/bin/python3")
        self.output("/opt/env/bin/pip uninstall --yes cmr_matrices")
        self.assertEqual(self.output(LEFT.format(folder="/opt")), "")
        self.output("pip install --user --break-system-packages --no-index /root/packages/*.whl")
        self.all_run("/root/.local/bin/cmr")
        self.output("pip uninstall --yes --break-system-packages cmr_matrices")
        self.assertEqual(self.output(LEFT.format(folder="/root/.local")), "")


if __name__ == "__main__":
    unittest.main()
