"""The toolchain's own command as a module, for tools that need its parts."""

import importlib.machinery
import importlib.util
import subprocess
import sys
from pathlib import Path

sys.dont_write_bytecode = True


def folder():
    """The folder of the kit."""
    return Path(subprocess.run(["rt", "doc"], capture_output=True, text=True, check=True).stdout.split()[0]).parent


def load():
    """The command `rt`, with its library as `rtlib`."""
    sys.path.insert(0, str(folder() / "bin"))
    loader = importlib.machinery.SourceFileLoader("rt_command", str(folder() / "bin/rt"))
    made = importlib.util.module_from_spec(importlib.util.spec_from_loader("rt_command", loader))
    loader.exec_module(made)
    made.rtlib.stop = made.stop
    return made
