"""The archive and the Debian package, unpacked and run."""

import glob
import os
import shutil
import subprocess

from knfcheck import PROGRAM, TOP, Folder

FORMULA = "p cnf 1 2\n1 0\n-1 0\n"


def runs(tally, name, program, folder):
    folder.write("f", FORMULA)
    done = subprocess.run([program, "solve", "f", "p"], cwd=folder.path, stdout=subprocess.PIPE, check=False)
    tally.test(f"{name} runs", (done.returncode, done.stdout) == (20, b"s UNSATISFIABLE\n"), done)


def holds(tally, name, root):
    for path in ("usr/share/man/man1/knf.1.gz", "usr/share/knf/tools/knf.py", "usr/share/knf/examples/rota/rota.py"):
        tally.test(f"{name} has {path}", os.path.exists(os.path.join(root, path)))


def tests(tally):
    with Folder() as folder:
        environment = dict(os.environ, KNF=PROGRAM)
        done = subprocess.run([os.path.join(TOP, "tools", "package.sh"), folder.path, "0.0"], env=environment, stdout=subprocess.PIPE, check=False)
        tally.test("the package is made", done.returncode == 0, done)
        shutil.unpack_archive(folder.at("knf-0.0.tar.gz"), folder.at("archive"))
        root = folder.at("archive/knf-0.0")
        runs(tally, "the archive", os.path.join(root, "usr/bin/knf"), folder)
        holds(tally, "the archive", root)
        for package in glob.glob(folder.at("*.deb")):
            root = folder.at("package")
            subprocess.run(["dpkg-deb", "-x", package, root], check=False)
            runs(tally, "the package", os.path.join(root, "usr/bin/knf"), folder)
            holds(tally, "the package", root)
