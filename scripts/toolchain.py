"""The toolchain's own command as a module. Used by scripts/library and scripts/edits."""
import importlib.machinery
import importlib.util
import os
import shutil
import sys
from pathlib import Path


def toolchain():
    """The toolchain's command `rt` as a module, and the toolchain's folder."""
    path = shutil.which("rt")
    if not path:
        sys.exit(f"{os.path.basename(sys.argv[0])}: there is no rt in PATH")
    path = Path(path).resolve()
    sys.dont_write_bytecode = True
    loader = importlib.machinery.SourceFileLoader("rt_command", str(path))
    made = importlib.util.module_from_spec(importlib.util.spec_from_loader("rt_command", loader))
    sys.modules["rt_command"] = made
    loader.exec_module(made)
    made.rtlib.Crate = made.Crate
    return made, path.parent.parent
