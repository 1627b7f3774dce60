"""The extension modules, which setuptools builds; all else of the package is in pyproject.toml."""

import sysconfig

from setuptools import setup

# One wheel for each CPython from 3.11 on, by its stable ABI, which builds without the interpreter's lock don't have.
has_stable_abi = not sysconfig.get_config_var("Py_GIL_DISABLED")

setup(
    cffi_modules=["binding.py:builder"],
    options={"bdist_wheel": {"py_limited_api": "cp311"}} if has_stable_abi else {},
)
