"""What pyproject.toml cannot say: the shared object goes beside the module, so the wheel is for one platform, and for every Python there."""

import os

from setuptools import Distribution, setup
from setuptools.command.build_py import build_py
from setuptools.errors import SetupError
from wheel.bdist_wheel import bdist_wheel

SHARED = 'build/liblupetzarin.so'
# What setuptools builds goes here: make clean removes it.
WORK = 'build/pip'


class ModuleWithObject(build_py):
    """The module, and the object beside it; a module that is installed to be edited finds that of the checkout itself."""

    def run(self):
        if not os.path.exists(SHARED):
            raise SetupError(f'{SHARED} is not there: run make first')
        super().run()
        if not self.editable_mode:
            self.copy_file(SHARED, os.path.join(self.build_lib, os.path.basename(SHARED)))


class PlatformWheel(bdist_wheel):
    """The module calls the object by ctypes, so it is bound to the platform and to no version of Python."""

    def get_tag(self):
        return 'py3', 'none', super().get_tag()[2]


class BoundToPlatform(Distribution):
    def has_ext_modules(self):
        return True


os.makedirs(WORK, exist_ok=True)
setup(distclass=BoundToPlatform, cmdclass={'build_py': ModuleWithObject, 'bdist_wheel': PlatformWheel},
      options={'build': {'build_base': WORK}, 'egg_info': {'egg_base': WORK}})
