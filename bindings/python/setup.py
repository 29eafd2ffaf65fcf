"""What pyproject.toml cannot say: the module in C, which is left out where it does not compile."""

from setuptools import Extension, setup

setup(ext_modules=[Extension("cagzhomul_layer._accelerator", ["cagzhomul_layer/_accelerator.c"], optional=True)])
