"""What the start of each tool imports: no module that is slow to load and that only few runs need."""
import subprocess
import sys

import pytest
from support import with_package

# Modules that only some runs of a tool need, by tool.
UNNEEDED = {
    "edit": ("dataclasses", "hashlib", "socket", "tempfile", "traceback", "lisfs.served"),
    "enlarge": ("dataclasses", "hashlib", "socket", "tempfile", "traceback", "lisfs.served"),
    "folder.bring": ("email", "tempfile", "traceback", "lisfs.served"),
    "folder.sync": ("email", "socket", "tempfile", "traceback", "lisfs.served"),
    "mount.cli": ("array", "dataclasses", "socket", "tempfile", "traceback", "lisfs.refusals", "lisfs.served"),
    "serve": ("dataclasses", "hashlib", "tempfile", "traceback", "lisfs.served"),
    "shell.cli": ("dataclasses", "hashlib", "socket", "tempfile", "traceback", "lisfs.served"),
    "talk": ("dataclasses", "hashlib", "tempfile", "traceback", "lisfs.served"),
    "web.cli": ("dataclasses", "jinja2", "tempfile", "traceback", "lisfs.served"),
}


def shown_by(tool, code):
    """The output of some code after a new Python has imported a tool. That Python has other modules at its start."""
    if tool == "web.cli":
        pytest.importorskip("jinja2", reason="jinja2 is missing: apt-get install python3-jinja2")
    code = f"import sys\nbefore = set(sys.modules)\nimport lisfs.{tool}\nloaded = set(sys.modules) - before\n" + code
    ran = subprocess.run([sys.executable, "-c", code], env=with_package(), stdin=subprocess.DEVNULL, stdout=subprocess.PIPE, check=True, text=True)
    return ran.stdout.split()


@pytest.mark.parametrize("tool", UNNEEDED)
def test_imports(tool):
    assert set(shown_by(tool, "print(*loaded)")).isdisjoint(UNNEEDED[tool])


@pytest.mark.parametrize("tool", UNNEEDED)
def test_records(tool):
    """The fields of a record have types. If they had texts, as after `from __future__ import annotations`, each start would compile them."""
    code = """
from typing import ForwardRef
for name in sorted(loaded):
    if name.startswith("lisfs."):
        for found in vars(sys.modules[name]).values():
            if isinstance(found, type) and hasattr(found, "_fields") and any(isinstance(kind, ForwardRef) for kind in found.__annotations__.values()):
                print(f"{name}.{found.__name__}")
"""
    assert shown_by(tool, code) == []


def test_a_program():
    """No temporary folder is needed for the standard error of a program."""
    code = "from lisfs.client import Program\nProgram(['true']).close()\nprint(*set(sys.modules) - before)"
    assert "tempfile" not in shown_by("client", code)
