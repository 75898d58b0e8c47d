"""Tests of what is installed: the package of Python, by `make install`, and the package of Debian."""
import json
import os
import pathlib
import shutil
import subprocess
import sys
import tempfile

from of_client import LOGIC
from protocol import ROOT

EXAMPLES, PYTHON = ROOT / "examples", ROOT / "clients/python"


def package(program):
    """The package is installed in a fresh environment, and its programs run there."""
    python = next((each for each in (sys.executable, "/usr/bin/python3") if subprocess.run([each, "-c", "import setuptools, wheel, venv, ensurepip"], capture_output=True, check=False).returncode == 0), None)
    assert python, "no python has setuptools and wheel"
    with tempfile.TemporaryDirectory() as folder:
        shutil.copytree(PYTHON, pathlib.Path(folder, "python"), ignore=shutil.ignore_patterns("__pycache__", "build", "*.egg-info"))
        subprocess.run([python, "-m", "venv", "--system-site-packages", "there"], cwd=folder, check=True, capture_output=True, timeout=100)
        home = pathlib.Path(folder, "there/bin")
        done = subprocess.run([str(home / "pip"), "install", "--no-build-isolation", "--no-index", "./python"], cwd=folder, capture_output=True, timeout=100, check=False)
        assert done.returncode == 0, done.stderr
        pathlib.Path(folder, "a.mm").write_bytes(LOGIC.replace(b"h1 h2 mp", b"h2 h1 mp"))
        report = subprocess.run([program, "verify", "a.mm"], cwd=folder, capture_output=True, timeout=60, check=False).stdout
        done = subprocess.run([str(home / "mmkeep-explain"), "a.mm"], input=report, cwd=folder, capture_output=True, timeout=60, check=False)
        assert done.returncode == 1 and b"step 5, `mp`" in done.stdout, done
        done = subprocess.run([str(home / "mmkeep-convert"), "--github"], input=report, cwd=folder, capture_output=True, timeout=60, check=False)
        assert done.returncode == 0 and done.stdout.startswith(b"::error file=a.mm,line=4,col=67,title=th P09::"), done
        assert all((home / f"mmkeep-{name}").exists() for name in ("lsp", "watch", "graph"))
        code = "import mmkeep, pathlib; assert mmkeep.__version__ == '0.9.0' and pathlib.Path(mmkeep.__file__).with_name('py.typed').exists()"
        subprocess.run([str(home / "python"), "-c", code], cwd=folder, check=True, timeout=60)


def tree(folder, program):
    """A copy of the clone in a folder, with the built program."""
    found = pathlib.Path(folder, "tree")
    shutil.copytree(ROOT, found, ignore=shutil.ignore_patterns("out", ".git", "__pycache__", "build", "*.egg-info", "rows"))
    (found / "crates/mmkeep/out").mkdir()
    shutil.copy(program, found / "crates/mmkeep/out/mmkeep")
    return found


def installation(program):
    """`make install` puts everything where it belongs, and the programs run from there."""
    with tempfile.TemporaryDirectory() as folder:
        there = pathlib.Path(folder, "there")
        subprocess.run(["make", "install", "PREFIX=/usr", f"DESTDIR={there}"], cwd=tree(folder, program), check=True, capture_output=True, timeout=60)
        installed(there)


def debian(program):
    """The package of Debian is built, lintian finds no error in it, and it has the same when it is unpacked."""
    with tempfile.TemporaryDirectory() as folder:
        done = subprocess.run(["dpkg-buildpackage", "-us", "-uc", "-b"], cwd=tree(folder, program), capture_output=True, timeout=150, check=False)
        assert done.returncode == 0, done.stderr[-2000:]
        [package] = pathlib.Path(folder).glob("mmkeep_0.9.0_*.deb")
        told = subprocess.run(["lintian", "--allow-root", "--fail-on", "error", str(package)], capture_output=True, timeout=150, check=False)
        assert told.returncode == 0, told.stdout
        subprocess.run(["dpkg", "-x", str(package), str(pathlib.Path(folder, "unpacked"))], check=True, timeout=60)
        installed(pathlib.Path(folder, "unpacked"))


def installed(there):
    """Asserts that what is installed is whole, and runs."""
    home = there / "usr/bin"
    (there / "a.mm").write_text((EXAMPLES / "faults.mm").read_text())
    settings = {**os.environ, "PATH": f"{home}:{os.environ['PATH']}", "MMKEEP": ""}
    done = subprocess.run("mmkeep verify a.mm 2>&1 | mmkeep-explain a.mm", shell=True, cwd=there, env=settings, capture_output=True, timeout=60, check=False)
    assert done.returncode == 1 and b"a.mm:3:4: a `$c` in a block (F02)" in done.stdout and done.stderr == b"", done
    done = subprocess.run("mmkeep verify a.mm 2>&1 | mmkeep-convert --sarif", shell=True, cwd=there, env={**settings, "MMKEEP_HELP": ""}, capture_output=True, timeout=60, check=False)
    pages = {each["helpUri"] for each in json.loads(done.stdout)["runs"][0]["tool"]["driver"]["rules"]}
    [page] = (there / "usr/share/doc/mmkeep").resolve().glob("FAULTS.md*")
    assert pages == {page.as_uri()}, (pages, page)
    assert {"mmkeep", "mmkeep-lsp", "mmkeep-explain", "mmkeep-watch", "mmkeep-convert", "mmkeep-graph"} == {each.name for each in home.iterdir()}
    assert any((there / f"usr/share/man/man1/mmkeep.1{end}").exists() for end in ("", ".gz")) and (there / "usr/share/mmkeep/editor/nvim/init.lua").exists()


TESTS = [package, installation, debian]
