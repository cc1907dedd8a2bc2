"""The library that the tests of this folder use, with its compilers and what runs its programs."""

import os
import re
import shlex
import shutil

import pytest

from tools import ROOT, read


class Library:
    def __init__(self, config):
        self.folder = os.path.join(ROOT, config.getoption("--library"))
        self.archive = f"{self.folder}/libwolfaren.a"
        self.runner = shlex.split(config.getoption("--runner"))
        given = config.getoption("--compiler")
        self.compilers = [given] if given else [it for it in ["gcc", "clang"] if shutil.which(it)]
        self.cpp_compilers = [] if given else [it for it in ["g++", "clang++"] if shutil.which(it)]
        self.is_plain = os.path.exists(f"{self.folder}/wolfaren.pc")
        self.is_foreign = bool(given)

    def flags(self, what):
        """Returns the flags that compile (`Cflags`) or link (`Libs`)."""
        if not self.is_plain:
            return {"Cflags": [f"-I{ROOT}/include"], "Libs": [self.archive]}[what]
        found = re.search(rf"^{what}: (.*)$", read(f"{self.folder}/wolfaren.pc"), re.M)[1]
        return found.replace("${pcfiledir}", self.folder).split()


def pytest_addoption(parser):
    parser.addoption("--library", default="build", help="the folder of libwolfaren.a")
    parser.addoption("--compiler", help="the C compiler, if it is that of another machine or package")
    parser.addoption("--runner", default="", help="what runs programs of that machine")
    parser.addoption("--pcap", action="append", default=[], help="a capture whose packets are counted instead of made ones")


def pytest_generate_tests(metafunc):
    if "compiler" in metafunc.fixturenames:
        metafunc.parametrize("compiler", Library(metafunc.config).compilers)


@pytest.fixture(scope="session")
def library(request):
    return Library(request.config)
