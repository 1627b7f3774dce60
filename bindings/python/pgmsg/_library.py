"""The extension modules: `_binding`, of which cffi made all calls of the header, and `_fast`, which lies in the same file."""

from __future__ import annotations

import importlib.machinery
import importlib.util
import sys

try:
    from . import _binding
except ImportError as error:
    raise ImportError(f"pgmsg isn't built: `pip install` or `python setup.py build_ext --inplace` does so ({error})") from error


def load(name: str) -> None:
    """Loads a module that lies in the file of `_binding`, from which other modules import it then."""
    loader = importlib.machinery.ExtensionFileLoader(name, _binding.__file__)
    spec = importlib.util.spec_from_loader(name, loader)
    assert spec
    sys.modules[name] = importlib.util.module_from_spec(spec)
    loader.exec_module(sys.modules[name])


load(f"{__package__}._fast")

ffi, lib = _binding.ffi, _binding.lib
