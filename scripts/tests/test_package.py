"""Tests of `scripts/package` over a stand-in for `rt`, whose program is a program of the system. tests.bare_root has the slow tests."""

import gzip
import hashlib
import io
import os
import re
import shutil
import subprocess
import tarfile
import tempfile
import unittest
import zipfile
from pathlib import Path
from unittest import mock

from building.clone import NO_KIT, OTHER_NAMES
from building.installed import SCRIPTS
from building.packing.linked import Linked
from cmr_matrices.errors import BadInput
from cmr_matrices.version import __version__
from tests.stand_in import SmallClone
from tests.support import PYTHON, TOP, needs_packers

# It prints its arguments.
PROGRAM = shutil.which("echo")
MODULES = sorted(str(it.relative_to(TOP / "python")) for it in (TOP / "python" / "cmr_matrices").rglob("*.py"))
NAMES = ["cmr", *OTHER_NAMES]
PAGES = [f"{it}.1" for it in (*NAMES, *SCRIPTS)]
BASH = ["cmr", "cmr-commands", "cmr-large", *SCRIPTS]
GIT = {
    "GIT_AUTHOR_DATE": "2026-01-02T03:04:05+0000",
    "GIT_COMMITTER_DATE": "2026-01-02T03:04:05+0000",
    "GIT_CONFIG_GLOBAL": "/dev/null",
    "GIT_CONFIG_SYSTEM": "/dev/null",
}
TIME = 1767323045
NO_RT = NO_KIT.format(task="build the program")
MARK = """
import sys
from building.clone import TOP, Sources
Sources.now().made(TOP / sys.argv[1])
"""


class PackedClone(SmallClone):
    """A small clone with a commit."""

    def __init__(self, folder):
        super().__init__(folder, {"low": ([], 1), "cmr": (["low"], 1)})
        for name in (".gitignore", "python/pyproject.toml", "python/README.md"):
            shutil.copy(TOP / name, self.top / name)
        shutil.copy(PROGRAM, self.crate("cmr") / "program")
        (self.crate("low") / "specs").mkdir()
        (self.crate("low") / "specs" / "Low.antt").touch()
        self.git("init", "--quiet")
        self.git("add", "--all")
        self.git("-c", "user.name=A B", "-c", "user.email=a@b.example", "commit", "--quiet", "-m", "All")

    def git(self, *words):
        env = {**os.environ, **GIT}
        return subprocess.run(["git", *words], cwd=self.top, env=env, check=True, capture_output=True, text=True).stdout.strip()

    def compile_unproved(self, place):
        """Records a program at this place as compiled without proofs."""
        (self.top / place).parent.mkdir(parents=True, exist_ok=True)
        shutil.copy(PROGRAM, self.top / place)
        env = {"PATH": "/usr/bin:/bin", "PYTHONDONTWRITEBYTECODE": "1"}
        subprocess.run([PYTHON, "-c", MARK, place], cwd=self.top / "scripts", env=env, check=True)

    def pack(self, out, *words, **settings):
        return self.run("scripts/package", "--out", out, *words, **settings)


def sum_of(data):
    return hashlib.sha256(data).hexdigest()


@needs_packers
class PackageTest(unittest.TestCase):
    """What the packages of a clone contain."""

    maxDiff = None

    @classmethod
    def setUpClass(cls):
        folder = tempfile.TemporaryDirectory()
        cls.addClassCleanup(folder.cleanup)
        cls.folder = Path(folder.name)
        cls.clone = PackedClone(folder.name)
        cls.out = cls.folder / "out"
        cls.ran = cls.clone.pack(cls.out)
        assert cls.ran.returncode == 0, cls.ran.stderr
        cls.wheel = next(cls.out.glob("*.whl"))
        cls.deb = cls.out / f"cmr_{__version__}_amd64.deb"
        cls.tar = cls.out / f"cmr-{__version__}-linux-x86_64.tar.gz"

    def output(self, *words, **settings):
        ran = subprocess.run(words, capture_output=True, text=True, check=False, **settings)
        self.assertEqual(ran.returncode, 0, ran.stderr)
        return ran.stdout

    def deb_entries(self):
        data = subprocess.run(["dpkg-deb", "--fsys-tarfile", self.deb], capture_output=True, check=True).stdout
        with tarfile.open(fileobj=io.BytesIO(data)) as tar:
            return {it.name.removeprefix("./"): (it, tar.extractfile(it).read() if it.isfile() else b"") for it in tar}

    def tar_entries(self):
        with tarfile.open(self.tar) as tar:
            start = f"cmr-{__version__}-linux-x86_64"
            entries = {it.name: (it, tar.extractfile(it).read() if it.isfile() else b"") for it in tar}
        self.assertEqual({it.partition("/")[0] for it in entries}, {start})
        return {name.removeprefix(f"{start}/"): it for name, it in entries.items()}

    def wheel_files(self):
        with zipfile.ZipFile(self.wheel) as files:
            return {it.filename: (it, files.read(it)) for it in files.infolist()}

    def provenances(self):
        info = f"cmr_matrices-{__version__}.dist-info/PROVENANCE"
        found = self.wheel_files()[info], self.deb_entries()["usr/share/doc/cmr/PROVENANCE"], self.tar_entries()["PROVENANCE"]
        return [data.decode() for _, data in found]

    def test_names_and_sums(self):
        versions = self.output("readelf", "--wide", "--version-info", PROGRAM, env={**os.environ, "LC_ALL": "C"})
        minor = max(int(it) for it in re.findall(r"GLIBC_2\.(\d+)", versions))
        self.assertEqual(self.wheel.name, f"cmr_matrices-{__version__}-py3-none-manylinux_2_{minor}_x86_64.whl")
        names = sorted(it.name for it in (self.wheel, self.deb, self.tar))
        self.assertEqual(sorted(os.listdir(self.out)), ["SHA256SUMS", *names])
        sums = "".join(f"{sum_of((self.out / it).read_bytes())}  {it}\n" for it in names)
        self.assertEqual((self.out / "SHA256SUMS").read_text(encoding="ascii"), sums)
        printed = [self.wheel, self.deb, self.tar, self.out / "SHA256SUMS"]
        self.assertEqual(self.ran.stdout.splitlines(), [str(it) for it in printed])

    def test_the_page_names_the_packages_of_this_version(self):
        text = (TOP / "docs" / "INSTALLING.md").read_text(encoding="utf-8")
        for name in (f"cmr_matrices-{__version__}-py3-none-manylinux_2_34_x86_64.whl", self.deb.name, self.tar.name):
            self.assertIn(name, text)
        self.assertEqual(set(re.findall(r"(?<=[_-])\d+\.\d+\.\d+", text)), {__version__})

    def test_another_clone_of_the_commit_gives_the_same_bytes(self):
        other = PackedClone.__new__(PackedClone)
        other.top, other.tools, other.log = self.folder / "other" / "clone", self.clone.tools, self.clone.log
        shutil.copytree(self.clone.top, other.top, symlinks=True)
        for it in other.top.rglob("*.py"):
            os.utime(it, (TIME, TIME))
        env = {"TZ": "Asia/Tokyo", "LC_ALL": "C", "PYTHONHASHSEED": "7"}
        ran = other.pack(self.folder / "again", env=env, umask=0o077, cwd="/")
        self.assertEqual(ran.returncode, 0, ran.stderr)
        self.assertEqual(sorted(os.listdir(self.folder / "again")), sorted(os.listdir(self.out)))
        for it in self.out.iterdir():
            with self.subTest(name=it.name):
                self.assertEqual(sum_of((self.folder / "again" / it.name).read_bytes()), sum_of(it.read_bytes()))
                self.assertEqual((self.folder / "again" / it.name).stat().st_mode & 0o777, 0o644)

    def test_the_provenance(self):
        first, *others = self.provenances()
        self.assertEqual(others, [first, first])
        facts, *_ = first.split("\n\nThe program was built")
        program = sum_of(Path(PROGRAM).read_bytes())
        lines = facts.splitlines()
        commit = self.clone.git("rev-parse", "HEAD")
        self.assertEqual(lines[:3], [f"Version: {__version__}", f"Commit: {commit}", "Date: 2026-01-02 03:04:05 UTC"])
        record = (self.clone.crate("cmr") / "out" / "cmr.sources").read_text(encoding="ascii").split()
        digests = [f"SHA-256: {program}", f"Sources: {record[0]}", f"Proofs: {record[2]}"]
        self.assertEqual(lines[3:], ["Program: cmr, also named cmr-batch and cmr-large", *digests, "Kit: stand-in-kit logic 0"])
        self.assertIn(f"git checkout {commit}\n    scripts/package\n", first)

    def test_the_wheel(self):
        files = self.wheel_files()
        start = f"cmr_matrices-{__version__}"
        data, info = f"{start}.data", f"{start}.dist-info"
        names = [
            *MODULES,
            "cmr_matrices/py.typed",
            *(f"{data}/scripts/{it}" for it in NAMES),
            *(f"{data}/data/share/man/man1/{it}" for it in PAGES),
            *(f"{data}/data/share/bash-completion/completions/{it}" for it in BASH),
            *(f"{data}/data/share/zsh/site-functions/{it}" for it in ("_cmr", "_cmr-commands")),
            *(f"{info}/{it}" for it in ("METADATA", "PROVENANCE", "RECORD", "WHEEL", "entry_points.txt", "top_level.txt")),
        ]
        self.assertEqual(sorted(files), sorted(names))
        for name, (it, content) in files.items():
            self.assertEqual(it.external_attr >> 16 & 0o777, 0o755 if "/scripts/" in name else 0o664 if "RECORD" in name else 0o644, name)
            self.assertEqual(it.date_time, (2026, 1, 2, 3, 4, 4), name)
            self.assertNotIn(str(self.folder).encode(), content, name)
        tag = self.wheel.stem.removeprefix(f"{start}-")
        self.assertIn(f"Root-Is-Purelib: false\nTag: {tag}\n", files[f"{info}/WHEEL"][1].decode())
        self.assertIn(f"Name: cmr-matrices\nVersion: {__version__}\n", files[f"{info}/METADATA"][1].decode())
        # The files that the links of scripts/install lead to.
        for name in NAMES:
            self.assertEqual(files[f"{data}/scripts/{name}"][1], Path(PROGRAM).read_bytes())
        path = f"{data}/data/share/bash-completion/completions"
        self.assertEqual(files[f"{path}/cmr-model"][1], files[f"{path}/cmr-commands"][1])

    def test_the_debian_package(self):
        entries = self.deb_entries()
        files = [
            *(f"usr/bin/{it}" for it in (*NAMES, *SCRIPTS)),
            *(f"usr/lib/cmr/scripts/{it}" for it in SCRIPTS.values()),
            *(f"usr/lib/python3/dist-packages/{it}" for it in (*MODULES, "cmr_matrices/py.typed")),
            *(f"usr/share/man/man1/{it}.gz" for it in PAGES),
            *(f"usr/share/bash-completion/completions/{it}" for it in BASH),
            *(f"usr/share/zsh/vendor-completions/{it}" for it in ("_cmr", "_cmr-commands")),
            *(f"usr/share/doc/cmr/{it}" for it in ("PROVENANCE", "changelog.gz")),
            "usr/share/lintian/overrides/cmr",
        ]
        self.assertEqual(sorted(name for name, (it, _) in entries.items() if not it.isdir()), sorted(files))
        self.are_settled(entries)
        for name in OTHER_NAMES:
            self.assertEqual(entries[f"usr/bin/{name}"][0].linkname, "cmr")
        page = gzip.decompress(entries["usr/share/man/man1/cmr.1.gz"][1])
        self.assertEqual(page, (TOP / "docs" / "cmr.1").read_bytes())
        fields = ("Package", "Version", "Maintainer", "Depends", "Recommends")
        field = {it: self.output("dpkg-deb", "--field", self.deb, it).strip() for it in fields}
        self.assertEqual([field[it] for it in fields[:3]], ["cmr", __version__, "A B <a@b.example>"])
        self.assertRegex(field["Depends"], r"^libc6 \(>= 2\.\d+\), python3 \(>= 3\.11\)$")
        self.assertEqual(field["Recommends"], "glpk-utils, graphviz, python3-swiglpk")
        sums = self.output("dpkg-deb", "--info", self.deb, "md5sums")
        listed = {name: digest for digest, name in (it.split("  ") for it in sums.splitlines())}
        self.assertEqual(listed, {name: hashlib.md5(data).hexdigest() for name, (it, data) in entries.items() if it.isfile()})

    def are_settled(self, entries):
        """The files belong to root and have the time of the commit."""
        for name, (it, _) in entries.items():
            self.assertEqual((it.uid, it.gid, it.uname, it.gname, it.mtime), (0, 0, "root", "root", TIME), name)
            is_run = it.isdir() or re.search("^(usr/)?(bin|lib/cmr/scripts)/", name)
            self.assertEqual(it.mode, 0o777 if it.issym() else 0o755 if is_run else 0o644, name)

    def test_the_tarball(self):
        entries = self.tar_entries()
        files = [
            "INSTALL",
            "PROVENANCE",
            *(f"bin/{it}" for it in (*NAMES, *SCRIPTS)),
            *(f"lib/cmr/scripts/{it}" for it in SCRIPTS.values()),
            *(f"lib/cmr/python/{it}" for it in (*MODULES, "cmr_matrices/py.typed")),
            *(f"share/man/man1/{it}" for it in PAGES),
            *(f"share/bash-completion/completions/{it}" for it in BASH),
            *(f"share/zsh/site-functions/{it}" for it in ("_cmr", "_cmr-commands")),
        ]
        self.assertEqual(sorted(name for name, (it, _) in entries.items() if not it.isdir()), sorted(files))
        self.are_settled(entries)
        note = entries["INSTALL"][1].decode()
        self.assertEqual(note.count("\n"), 2)
        self.assertIn(f"~/cmr-{__version__}-linux-x86_64", note)

    def test_the_tarball_works_at_another_place(self):
        with tempfile.TemporaryDirectory() as name:
            self.output("tar", "-xzf", self.tar, "-C", name)
            folder = next(Path(name).iterdir())
            self.assertEqual(self.output(folder / "bin" / "cmr", "tu", "x"), "tu x\n")
            for it in OTHER_NAMES:
                self.assertEqual(os.readlink(folder / "bin" / it), "cmr")
            for it in SCRIPTS:
                self.assertEqual(self.output(folder / "bin" / it, "--version"), f"{it} {__version__}\n")
            code = "import cmr_matrices; print(cmr_matrices.find_program())"
            env = {"PATH": "/usr/bin:/bin", "PYTHONPATH": f"{folder}/lib/cmr/python"}
            self.assertEqual(self.output(PYTHON, "-c", code, env=env), f"{folder}/bin/cmr\n")

    def test_the_wheel_in_an_environment_without_a_network(self):
        with tempfile.TemporaryDirectory() as name:
            self.output(PYTHON, "-m", "venv", "--without-pip", name)
            pip = [PYTHON, "-m", "pip", "--isolated", "--disable-pip-version-check", "--python", f"{name}/bin/python"]
            before = {it for it in Path(name).rglob("*") if it.is_file()}
            self.output(*pip, "install", "--no-index", self.wheel)
            self.assertEqual(self.output(f"{name}/bin/cmr", "tu", "x"), "tu x\n")
            for it in OTHER_NAMES:
                self.assertEqual(self.output(f"{name}/bin/{it}", "x"), "x\n")
            for it in SCRIPTS:
                self.assertEqual(self.output(f"{name}/bin/{it}", "--version"), f"{it} {__version__}\n")
            self.assertTrue((Path(name) / "share" / "man" / "man1" / "cmr-model.1").exists())
            # Its own program, although the PATH has another one.
            env = {"PATH": f"{self.other_program()}:/usr/bin:/bin"}
            code = "import cmr_matrices; print(cmr_matrices.find_program())"
            found = self.output(f"{name}/bin/python", "-W", "error", "-c", code, env=env)
            self.assertEqual(found, f"{os.path.realpath(name)}/bin/cmr\n")
            self.output(*pip, "uninstall", "--yes", "cmr_matrices")
            self.assertEqual({it for it in Path(name).rglob("*") if it.is_file()} - before, set())

    def other_program(self):
        folder = self.folder / "bin"
        folder.mkdir(exist_ok=True)
        shutil.copy(PROGRAM, folder / "cmr")
        return folder


@needs_packers
class ProgramTest(unittest.TestCase):
    """Which program is packed."""

    def setUp(self):
        folder = tempfile.TemporaryDirectory()
        self.addCleanup(folder.cleanup)
        self.clone = PackedClone(folder.name)
        self.out = Path(folder.name) / "out"

    def refused(self, *words, **settings):
        ran = self.clone.pack(self.out, *words, **settings)
        self.assertEqual((ran.returncode, ran.stdout, self.out.exists()), (1, "", False), ran.stderr)
        return ran.stderr

    def packed(self, *words, **settings):
        """The names of the packages, and their provenance."""
        ran = self.clone.pack(self.out, "tar", *words, **settings)
        self.assertEqual(ran.returncode, 0, ran.stderr)
        with tarfile.open(next(self.out.glob("*.tar.gz"))) as tar:
            kept = [it for it in tar if it.name.endswith(("PROVENANCE", "version.py"))]
            texts = {Path(it.name).name: tar.extractfile(it).read().decode() for it in kept}
        return sorted(os.listdir(self.out)), texts["PROVENANCE"], texts["version.py"]

    def built(self):
        """How often each crate was built."""
        names = [line[1] for line in self.clone.logged() if line[0] == "begin"]
        return {it: names.count(it) for it in names}

    def test_without_the_kit(self):
        self.assertIn(NO_RT, self.refused(has_rt=False))
        self.assertEqual(self.refused("--unproved", has_rt=False), f"package: {NO_KIT.format(task='compile the program')}\n")

    def test_a_crate_that_is_not_proved(self):
        (self.clone.crate("low") / "fails").touch()
        self.assertIn("package: low was not built\n", self.refused())

    def test_a_program_that_is_built_is_not_built_again(self):
        self.packed()
        self.packed(has_rt=False)
        self.assertEqual(self.built(), {"low": 1, "cmr": 1})

    def test_a_later_definition_is_proved_first(self):
        self.packed()
        shutil.rmtree(self.out)
        (self.clone.crate("low") / "specs" / "Low.antt").write_text("later", encoding="utf-8")
        self.assertIn(NO_RT, self.refused(has_rt=False))
        _, provenance, _ = self.packed()
        self.assertEqual(self.built(), {"low": 2, "cmr": 2})
        self.assertIn(f"Commit: {self.clone.git('rev-parse', 'HEAD')}, with changes that are not committed\n", provenance)

    def test_an_unproved_program_is_not_packed_as_proved(self):
        self.clone.compile_unproved("crates/cmr/out/cmr")
        self.assertIn(NO_RT, self.refused(has_rt=False))

    def test_a_program_that_was_changed(self):
        self.packed()
        shutil.rmtree(self.out)
        with (self.clone.crate("cmr") / "out" / "cmr").open("ab") as file:
            file.write(b"x")
        self.assertIn(NO_RT, self.refused(has_rt=False))

    def test_an_unproved_program(self):
        self.clone.compile_unproved("out/unproved/cmr")
        names, provenance, version = self.packed("deb", "--unproved", has_rt=False)
        tar = f"cmr-{__version__}+unproved-linux-x86_64.tar.gz"
        self.assertEqual(names, ["SHA256SUMS", tar, f"cmr_{__version__}~unproved_amd64.deb"])
        self.assertTrue(provenance.startswith(f"Version: {__version__}+unproved\n"))
        self.assertIn("Nothing is proved of the program in this package", provenance)
        self.assertNotIn("Proofs: ", provenance)
        self.assertIn(f'__version__ = "{__version__}+unproved"\n', version)
        deb = self.out / names[2]
        fields = subprocess.run(["dpkg-deb", "--field", deb], capture_output=True, text=True, check=True).stdout
        self.assertIn(f"Version: {__version__}~unproved\n", fields)
        self.assertIn("compiled without proofs", fields)
        # A later package with the proved program replaces it.
        words = ["dpkg", "--compare-versions", f"{__version__}~unproved", "lt", __version__]
        self.assertEqual(subprocess.run(words, check=False).returncode, 0)
        subprocess.run(["tar", "-xzf", self.out / tar, "-C", self.out], check=True)
        code = "import cmr_matrices; cmr_matrices.find_program()"
        env = {"PATH": "/usr/bin:/bin", "PYTHONPATH": str(self.out / tar.removesuffix(".tar.gz") / "lib" / "cmr" / "python")}
        ran = subprocess.run([PYTHON, "-c", code], env=env, capture_output=True, text=True, check=True)
        self.assertIn("UnprovedProgram: nothing is proved of this run", ran.stderr)

    def test_a_library_that_other_machines_may_not_have(self):
        shutil.copy(PYTHON, self.clone.crate("cmr") / "program")
        self.assertRegex(self.refused(), "another machine may not have the libraries of the program: .*lib")

    def test_a_version_of_glibc_without_a_number(self):
        said = "X86-64 0x1 (NEEDED) Shared library: [libc.so.6] Name: GLIBC_2.4 Name: GLIBC_2.34 Name: GLIBC_2.2.5"
        with mock.patch("building.packing.linked.output", return_value=said):
            self.assertEqual(Linked.of(Path(PROGRAM)), Linked(frozenset({"libc.so.6"}), (2, 34)))
        with mock.patch("building.packing.linked.output", return_value=f"{said} Name: GLIBC_ABI_DT_RELR"):
            with self.assertRaisesRegex(BadInput, "another machine may not have GLIBC_ABI_DT_RELR"):
                Linked.of(Path(PROGRAM))

    def test_other_kinds(self):
        ran = self.clone.pack(self.out, "rpm")
        self.assertEqual(ran.returncode, 2)
        self.assertIn("rpm is no kind of package: choose from wheel, deb, tar", ran.stderr)


if __name__ == "__main__":
    unittest.main()
