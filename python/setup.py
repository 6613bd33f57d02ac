"""Compiles the shared library from wire.c and the static ones with cc, or says what is missing."""
import os
import pathlib
import re
import shlex
import shutil
import subprocess
from typing import Dict, List, Tuple, Type

from setuptools import Command, Distribution, setup
from setuptools.command.build_py import build_py

HERE = pathlib.Path(__file__).resolve().parent
CRATE = HERE.parent / 'crates/delgunsai_c'


def named(variable: str, file: str) -> pathlib.Path:
    """The library that a variable names. It is built in another folder than the one where pip was called."""
    path = pathlib.Path(os.environ[variable])
    if not path.is_absolute():
        raise SystemExit(f'{variable} is {str(path)!r}: give the whole path of {file}, from / on')
    return path


def core() -> pathlib.Path:
    """The proved library: DELGUNSAI_CORE, or where `rt lib` leaves it."""
    if os.environ.get('DELGUNSAI_CORE'):
        path = named('DELGUNSAI_CORE', 'libdelgunsai_c.a')
    elif CRATE.is_dir():
        path = CRATE / 'out/libdelgunsai_c.a'
    else:
        raise SystemExit("missing: libdelgunsai_c.a: set DELGUNSAI_CORE to the one that `rt lib` builds in Delgunsai's crates/delgunsai_c")
    if not path.is_file():
        raise SystemExit(f'missing: {path}: run `rt lib` in crates/delgunsai_c, or set DELGUNSAI_CORE to its libdelgunsai_c.a')
    return path


def heap() -> pathlib.Path:
    """The kit's library of the heap: DELGUNSAI_HEAP, or beside the command rt."""
    if os.environ.get('DELGUNSAI_HEAP'):
        path = named('DELGUNSAI_HEAP', "the kit's c/liblibc_c.a")
    else:
        rt = shutil.which('rt')
        if rt is None:
            raise SystemExit("missing: rt: put the kit's bin into PATH, or set DELGUNSAI_HEAP to its c/liblibc_c.a")
        path = pathlib.Path(rt).resolve().parent.parent / 'c/liblibc_c.a'
    if not path.is_file():
        raise SystemExit(f"missing: {path}: set DELGUNSAI_HEAP to the kit's c/liblibc_c.a")
    return path


def header() -> pathlib.Path:
    """The folder of the library's header: this one, in a copy that has it, or the repository's."""
    for folder in (HERE, HERE.parent / 'include'):
        if (folder / 'delgunsai.h').is_file():
            return folder
    raise SystemExit(f'missing: delgunsai.h: copy it from include/ of Delgunsai to {HERE}')


def compiler() -> List[str]:
    """The words that call the C compiler: CC, or cc where that has none."""
    words = os.environ.get('CC', '')
    try:
        return shlex.split(words) or ['cc']
    except ValueError as error:
        raise SystemExit(f'CC is {words!r}: {error}') from None


def calls() -> List[str]:
    """The calls of the library that _core.py makes."""
    text = (HERE / 'delgunsai/_core.py').read_text()
    return re.findall(r"(?m)^        \('(\w+)', ", text)


def link(words: List[str], library: pathlib.Path) -> None:
    """Links the shared library. An archive that lacks a call is told in one line: without that it would be built, and fail at import."""
    archives = ['-Wl,--whole-archive', str(core()), '-Wl,--no-whole-archive', str(heap()), f'-Wl,--exclude-libs,{heap().name}']
    done = subprocess.run([*words, f'-I{header()}', '-o', str(library), str(HERE / 'wire.c'), *archives], stderr=subprocess.PIPE, text=True, errors='replace')
    if done.returncode != 0:
        lacks = sorted(set(re.findall(r"(?:undefined (?:reference to|symbol:)|required symbol) [`']?(\w+)", done.stderr)))
        if lacks:
            rest = f' and {len(lacks) - 1} more' if len(lacks) > 1 else ''
            raise SystemExit(f'missing: {lacks[0]}{rest}, in {archives[1]} and {archives[3]}: name whole archives of this version')
        raise SystemExit(done.stderr)


class Build(build_py):
    """Builds the modules, and the shared library beside them: beside the sources where these are what is imported (pip install -e)."""

    def run(self) -> None:
        super().run()
        words = compiler()
        if shutil.which(words[0]) is None:
            raise SystemExit(f'missing: {words[0]}: a C compiler, or set CC to one')
        folder = (HERE if self.editable_mode else pathlib.Path(self.build_lib)) / 'delgunsai'
        folder.mkdir(parents=True, exist_ok=True)
        link([*words, '-O2', '-fPIC', '-shared', '-Wl,-z,defs', *(f'-Wl,--require-defined={name}' for name in calls())],
             folder / 'libdelgunsai.so')


class Binary(Distribution):
    """The package is of one kind of machine."""

    def has_ext_modules(self) -> bool:
        return True


def commands() -> Dict[str, Type[Command]]:
    """The commands of the package's own. Where bdist_wheel isn't there, pip asks first what else is needed."""
    try:
        from setuptools.command.bdist_wheel import bdist_wheel
    except ImportError:                                    # of setuptools below 70.1
        try:
            from wheel.bdist_wheel import bdist_wheel
        except ImportError:
            return {'build_py': Build}

    class Wheel(bdist_wheel):
        """A wheel for each Python 3: the shared library uses nothing of Python. DELGUNSAI_PLATFORM names its platform (build_wheel)."""

        def get_tag(self) -> Tuple[str, str, str]:
            return 'py3', 'none', os.environ.get('DELGUNSAI_PLATFORM') or super().get_tag()[2]

    return {'build_py': Build, 'bdist_wheel': Wheel}


setup(cmdclass=commands(), distclass=Binary)
