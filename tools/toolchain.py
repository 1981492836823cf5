"""The parts that the toolchain's command `rt` is made of, for what its calls do not do."""
import importlib.machinery
import importlib.util
import os
import shutil
import sys


def load(file):
    """The module in this file, which stands beside the command `rt`."""
    command = shutil.which("rt")
    if command is None:
        raise LookupError("the toolchain's command rt is not on the path")
    path = os.path.join(os.path.dirname(os.path.realpath(command)), file)
    loader = importlib.machinery.SourceFileLoader(file.partition(".")[0], path)
    module = importlib.util.module_from_spec(importlib.util.spec_from_loader(loader.name, loader))
    sys.modules[loader.name] = module
    loader.exec_module(module)
    return module
