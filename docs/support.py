"""A proxy for the test support of the tools: importing this gives that package, which is in `tools/tests/support`."""
import importlib
import os
import sys

sys.path.insert(0, os.path.join(os.path.dirname(os.path.dirname(os.path.abspath(__file__))), "tools", "tests"))
del sys.modules[__name__]
importlib.import_module(__name__)
