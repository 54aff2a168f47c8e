"""The package as `pip` installs it: each command starts, and the pages have their templates and files."""
import os
import re
import shutil
import signal
import subprocess
import sys
import urllib.parse
import urllib.request
from http.cookiejar import CookieJar

import pytest
from support import TOP

COMMANDS = ("browse", "edit", "enlarge", "import", "mount", "serve", "shell", "sync", "talk")
# What a build without network needs in the Python that runs this: its modules, by their packages of Debian.
PACKAGES = {"venv": "python3-venv", "pip": "python3-pip", "setuptools": "python3-setuptools", "wheel": "python3-wheel"}


def ran(*command, **more):
    return subprocess.run(command, stdin=subprocess.DEVNULL, stdout=subprocess.PIPE, stderr=subprocess.STDOUT, check=False, text=True, **more)


@pytest.fixture(name="installed", scope="module")
def _installed(tmp_path_factory):
    """The folder with the commands. The package is built from a copy, since a build leaves folders beside its sources. The venv uses the pip of the
    Python that runs this: a separate copy takes most of the time."""
    for module, package in PACKAGES.items():
        if ran(sys.executable, "-c", f"import {module}").returncode:
            pytest.skip(f"{module} is missing: apt-get install {package}")
    top = tmp_path_factory.mktemp("install")
    shutil.copytree(os.path.join(TOP, "tools"), top / "tools", ignore=shutil.ignore_patterns("tests", "build", "*.egg-info", "__pycache__"))
    made = ran(sys.executable, "-m", "venv", "--system-site-packages", "--without-pip", str(top / "venv"))
    assert made.returncode == 0, ("a venv", made.stdout)
    put = ran(str(top / "venv/bin/python"), "-m", "pip", "install", "--no-index", "--no-build-isolation", "--disable-pip-version-check", str(top / "tools"))
    assert put.returncode == 0, ("pip install", put.stdout)
    return top / "venv/bin"


@pytest.mark.parametrize("name", COMMANDS)
def test_usage(installed, name):
    told = ran(str(installed / f"lisfs-{name}"), "--help").stdout
    assert f"usage: tools/{name} " in told and "Traceback" not in told, (f"the usage of lisfs-{name}", told)


def test_no_program(installed, image):
    """Outside a checkout the program is the one that the caller names."""
    environment = {name: value for name, value in os.environ.items() if name != "LISFS_PROGRAM"}
    told = ran(str(installed / "lisfs-shell"), image, env=environment)
    assert (told.returncode, told.stdout) == (1, "shell: set LISFS_PROGRAM to the path of the program lisfs, which is not known here\n")


def test_pages(installed, image, program):
    """One page, and each file that it names."""
    pytest.importorskip("jinja2", reason="jinja2 is missing: apt-get install python3-jinja2")
    with subprocess.Popen([str(installed / "lisfs-browse"), image, "--write"], stdin=subprocess.DEVNULL, stdout=subprocess.PIPE, text=True,
                          env={**os.environ, "LISFS_PROGRAM": program}) as browse:
        try:
            client = urllib.request.build_opener(urllib.request.ProxyHandler({}), urllib.request.HTTPCookieProcessor(CookieJar()))
            with client.open(browse.stdout.readline().strip()) as answer:
                address, page = answer.url, answer.read().decode()
            assert "<h1>" in page and "Declare a word" in page, ("a page by its templates", page)
            named = set(re.findall(r'(?:href|src)="([^"?]*\.(?:css|js|svg))"', page))
            assert named == {"style.css", "script.js", "icon.svg"}, "the files of a page"
            for name in named:
                with client.open(urllib.parse.urljoin(address, name)) as answer:
                    assert answer.status == 200 and answer.read(), name
        finally:
            browse.send_signal(signal.SIGTERM)
        assert browse.wait() == 0, "the end"
