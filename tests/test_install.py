"""tools/install.sh installs all or nothing, and removes what it installed; tools/release.sh makes an archive of it.

It is tried in a copy in which `rt` and the builder are played: a played program prints the text that the repository keeps
of its example.
"""
import os
import shutil
import stat
import subprocess
import sys
import tarfile
import tempfile
import unittest

import sdd_path  # noqa: F401
from sdd.model.files import write_text
from sdd.programs import ROOT

LIBC = "malloc is libc's; with mimalloc"
QUIET = "print('played')\n"                 # what other scripts are replaced by
RT = '#!/bin/sh\nif [ "$1" = version ]; then echo played-kit; else exit 1; fi\n'
BUILDER = '''\
import os, sys
into, name = sys.argv[-2:]
if os.environ.get("FAILS") == name:
    sys.exit("the builder has no memory")
with open(into, "w", newline="\\n") as f:
    f.write("#!/bin/sh\\ncat %s/crates/%s/stdout\\n" % (os.environ["ROOT"], name))
os.chmod(into, 0o755)
'''
SITE = "import os, sys\nos.makedirs(sys.argv[1])\nopen(os.path.join(sys.argv[1], 'index.html'), 'w').close()\n"


@unittest.skipUnless(shutil.which("bash") and os.name == "posix", "there is no bash")
class Install(unittest.TestCase):
    def setUp(self):
        room = tempfile.TemporaryDirectory()
        self.addCleanup(room.cleanup)
        self.root, self.prefix, self.bin = (os.path.join(room.name, x) for x in ("root", "prefix", "bin"))
        os.makedirs(os.path.join(self.root, "tools"))
        os.makedirs(self.bin)
        for name in ("crates", "python", os.path.join("tools", "install")):
            os.symlink(os.path.join(ROOT, name), os.path.join(self.root, name))
        for name in ("install.sh", "make_pyz.py", "sdd_path.py"):
            shutil.copy(os.path.join(ROOT, "tools", name), os.path.join(self.root, "tools", name))
        write_text(os.path.join(self.root, "tools", "build_unproved.py"), BUILDER)
        for name in ("try_cases.py", "fuzz.py"):
            write_text(os.path.join(self.root, "tools", name), QUIET)
        write_text(os.path.join(self.bin, "rt"), RT)
        os.chmod(os.path.join(self.bin, "rt"), stat.S_IRWXU)
        os.symlink(sys.executable, os.path.join(self.bin, "python3"))

    def call(self, script, *words, fails=""):
        env = {**os.environ, "PATH": self.bin + os.pathsep + os.defpath, "ROOT": ROOT, "FAILS": fails}
        return subprocess.run(["bash", os.path.join(self.root, "tools", script), *words], env=env, stdin=subprocess.DEVNULL,
                              stdout=subprocess.PIPE, stderr=subprocess.PIPE, text=True)

    def install(self, *words, fails=""):
        return self.call("install.sh", *words, self.prefix, fails=fails)

    def installed(self):
        return sorted(os.path.relpath(os.path.join(at, x), self.prefix) for at, _, names in os.walk(self.prefix) for x in names)

    def test_all(self):
        done = self.install("--unproved")
        self.assertEqual((done.returncode, done.stderr), (0, ""))
        for k in (1, 2, 3, 4):
            self.assertIn("step %d of 4: " % k, done.stdout)
        there = self.installed()
        for name in ("bin/sdd", "bin/sdd1-unproved", "bin/sdd1_inside-unproved", "bin/sdd1_ask-unproved", "share/man/man1/sdd.1", "share/sdd1/sdd1-unproved"):
            self.assertIn(name, there)
        version = subprocess.run([sys.executable, os.path.join(self.prefix, "bin", "sdd"), "--version"], stdout=subprocess.PIPE, text=True,
                                 env={**os.environ, "PATH": os.path.join(self.prefix, "bin")}).stdout
        self.assertIn("sdd1-unproved, unproved; ", version)
        self.assertIn("played-kit, malloc of libc", version)
        self.assertIn(LIBC, done.stdout)
        self.assertNotIn(LIBC, self.install("--unproved", "--libc").stdout)
        self.assertEqual((self.install("--uninstall").returncode, self.installed()), (0, []))

    def test_nothing_where_one_fails(self):
        for name in ("sdd1", "sdd1_inside", "sdd1_ask"):
            done = self.install("--unproved", fails=name)
            self.assertEqual((done.returncode, self.installed()), (2, []))
            self.assertIn("the builder has no memory", done.stderr)
            self.assertIn("so nothing was installed", done.stderr)

    def test_nothing_where_the_gate_fails(self):
        done = self.install()
        self.assertEqual((done.returncode, self.installed()), (2, []))
        self.assertIn("step 1 of 2: the gate", done.stdout)

    def commit(self):
        """Makes the copy a clone, with a file for each thing that an archive has."""
        for name in ("examples/one/catalogue.toml", "docs/ONE.md", "web/sdd1.html", "README.md", "CHANGELOG.md", "CITATION.cff", "LICENSE-MIT", "LICENSE-APACHE"):
            os.makedirs(os.path.dirname(os.path.join(self.root, name)), exist_ok=True)
            write_text(os.path.join(self.root, name), name)
        git = ["git", "-C", self.root, "-c", "user.name=played", "-c", "user.email=played@example.org"]
        for words in (["init", "-q"], ["add", "-A"], ["commit", "-q", "-m", "all"]):
            subprocess.run(git + words, check=True, stdout=subprocess.PIPE, stderr=subprocess.PIPE)

    @unittest.skipUnless(all(map(shutil.which, ("git", "gzip", "sha256sum", "tar"))) and sys.platform == "linux", "there is no git, gzip, sha256sum or tar")
    def test_release(self):
        shutil.copy(os.path.join(ROOT, "tools", "release.sh"), os.path.join(self.root, "tools", "release.sh"))
        self.assertIn("this is no clone", self.call("release.sh", "--unproved", self.prefix).stderr)
        write_text(os.path.join(self.root, "tools", "make_site.py"), "import sys\nsys.exit('no library')\n")
        self.commit()
        self.assertIn("no library\nrelease.sh: there is no site", self.call("release.sh", "--unproved", self.prefix).stderr)
        write_text(os.path.join(self.root, "tools", "make_site.py"), SITE)
        self.commit()
        done = self.call("release.sh", "--unproved", self.prefix)
        self.assertEqual((done.returncode, done.stderr), (0, ""))
        archive, total, site, total_of_site = self.installed()
        self.assertTrue(archive.endswith("-unproved.tar.gz") and total == archive + ".sha256", archive)
        self.assertTrue(site.endswith("-site.tar.gz") and total_of_site == site + ".sha256", site)
        with tarfile.open(os.path.join(self.prefix, site)) as made:
            self.assertIn(site.removesuffix(".tar.gz") + "/index.html", made.getnames())
        with tarfile.open(os.path.join(self.prefix, archive)) as made:
            names = {x.split("/", 1)[1] for x in made.getnames() if "/" in x}
        for name in ("bin/sdd", "bin/sdd1-unproved", "bin/sdd1_ask-unproved", "examples/one/catalogue.toml", "docs/ONE.md", "web/sdd1.html", "LICENSE-MIT", "COMMIT"):
            self.assertIn(name, names)
        self.assertEqual(subprocess.run(["sha256sum", "-c", total], cwd=self.prefix, stdout=subprocess.PIPE).returncode, 0)
        write_text(os.path.join(self.root, "README.md"), "changed")
        self.assertIn("something here isn't committed", self.call("release.sh", "--unproved", self.prefix).stderr)


if __name__ == "__main__":
    unittest.main()
