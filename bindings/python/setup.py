"""What pyproject.toml can't say: the license, whose form there depends on the version of setuptools; the extension; and that its wheel is for
every CPython from 3.9 on, but for a free-threaded one, which has no stable ABI."""

import sysconfig

import setuptools

LICENSE = "license_expression" if int(setuptools.__version__.split(".")[0]) >= 77 else "license"

setuptools.setup(
    cffi_modules=["native/build.py:ffi"],
    options={} if sysconfig.get_config_var("Py_GIL_DISABLED") else {"bdist_wheel": {"py_limited_api": "cp39"}},
    **{LICENSE: "MIT OR Apache-2.0"},
)
