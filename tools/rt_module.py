"""rt as a module, for tools that run it otherwise than it runs itself."""
import importlib.machinery
import importlib.util
import os


def load(file):
    """The rt in this file."""
    loader = importlib.machinery.SourceFileLoader("rt", os.path.realpath(file))
    rt = importlib.util.module_from_spec(importlib.util.spec_from_loader("rt", loader))
    loader.exec_module(rt)
    return rt
