"""The command `rt` of the kit as a module."""
import functools
import importlib.machinery
import importlib.util
import os
import shutil
import sys
import types


@functools.cache
def rt() -> types.ModuleType | None:
    """Its own functions, or none where it is not installed. (It is loaded by its file, which is in no package.)"""
    file = shutil.which("rt")
    if not file:
        return None
    loader = importlib.machinery.SourceFileLoader("rt", os.path.realpath(file))
    spec = importlib.util.spec_from_loader("rt", loader)
    assert spec
    made = importlib.util.module_from_spec(spec)
    sys.modules["rt"] = made
    loader.exec_module(made)
    return made
