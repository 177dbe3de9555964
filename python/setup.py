"""Builds the compiled module where there is a C compiler and the headers of CPython; without them the package has none.

All else is in pyproject.toml.
"""

from setuptools import Extension, setup

try:
    from setuptools.command.bdist_wheel import bdist_wheel
except ImportError:
    from wheel.bdist_wheel import bdist_wheel


class Wheel(bdist_wheel):
    """A wheel of one platform, and of any Python: the module is for each CPython from 3.9 on, and others do without."""

    def get_tag(self):
        return "py3", "none", super().get_tag()[2]


setup(
    cmdclass={"bdist_wheel": Wheel},
    ext_modules=[
        Extension(
            "pendratsoa._compiled",
            ["src/compiled.c", "src/calls.c", "src/records.c", "src/stream.c"],
            depends=["src/module.h", "src/calls.h", "src/pendratsoa.h"],
            # no path of a folder is in it, so that it is the same from each
            extra_compile_args=["-std=gnu11", "-O2", "-g0", "-fvisibility=hidden"],
            extra_link_args=["-Wl,--strip-all"],
            py_limited_api=True,
            optional=True,
        )
    ],
)
