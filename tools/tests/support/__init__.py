"""What tests and measurements share. Importing it puts the package `lisfs` and the modules of `bench/` on the path. `conftest.py` does so for tests.
Scripts in `bench/`, `.ci/` and `docs/` reach it by a module of this name beside them.

- `waiting`: waits for what must come, from processes, pipes and sockets.
- `running`: a tool that runs beside a test.
- `costs`: processor time compared with a yardstick.
- `inputs`: random inputs, and how the client and the program differ for them.
- `peers`: a server and its clients.
- `terminals`: a program at a terminal, and a person at one.
- `visitors`: a client of the pages, like a browser.
- `chromium`: a headless browser, by Selenium.
- `web`: images, hostile files and fixtures for the tests of `tools/browse`.
- `shell_tables`: scripts for the prompt, and what they show.
- `images`: images, files beside them, and what an image holds.
- `replies`: the results of calls of the client.
- `shells`: the prompt with scripts.
- `syncing`: runs of `tools/sync`, and folders for them.
- `mount`: requests to a mount, and its answers.
"""
import os
import sys

TESTS = os.path.dirname(os.path.dirname(os.path.realpath(__file__)))
TOOLS = os.path.dirname(TESTS)
TOP = os.path.dirname(TOOLS)

sys.path[:0] = [TOOLS, os.path.join(TOP, "bench")]


def tool(name: str) -> str:
    """The path of a tool."""
    return os.path.join(TOOLS, name)


def with_package(**more: str) -> dict[str, str]:
    """The environment in which a Python program of a test finds the package."""
    return {**os.environ, "PYTHONPATH": TOOLS, **more}
