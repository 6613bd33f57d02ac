"""The C library and its example, built for tests."""
import os, shutil, subprocess, sys

from products import CORE, TOP

HEAP = os.environ.get('DELGUNSAI_HEAP') or os.path.join(os.path.dirname(os.path.dirname(os.path.realpath(shutil.which('rt') or '/rt'))),
                                                       'c/liblibc_c.a')
EXAMPLE = os.path.join(TOP, 'include/example.c')

def missing_for_c():
    """What isn't there of what the example is built with."""
    return [name for name, is_there in (('cc', shutil.which('cc')), ('the kit', os.path.exists(HEAP))) if not is_there]

def compile_to(out, *words):
    line = ['cc', '-std=c11', '-D_GNU_SOURCE', '-Wall', '-Wextra', '-Werror', '-I' + os.path.join(TOP, 'include'), '-o', out, *words]
    done = subprocess.run(line, capture_output=True, text=True)
    if done.returncode != 0:
        sys.exit(done.stderr)

def build_shared(folder):
    """Makes the shared library of the archives in this folder."""
    compile_to(os.path.join(folder, 'libdelgunsai.so'), '-shared', '-Wl,--whole-archive', CORE, '-Wl,--no-whole-archive', HEAP)

def build(folder, name, source, flags=()):
    """Builds a program over the shared library of this folder, and returns its path."""
    compile_to(os.path.join(folder, name), *flags, source, os.path.join(folder, 'libdelgunsai.so'), '-Wl,-rpath,' + folder)
    return os.path.join(folder, name)

def build_example(folder, limits):
    """Builds the library and its example, in which each text of `limits` is replaced by another, and returns the example's path."""
    with open(EXAMPLE) as file:
        text = file.read()
    for old, new in limits.items():
        if text.count(old) != 1:
            sys.exit(f'{EXAMPLE} has {old!r} {text.count(old)} times')
        text = text.replace(old, new)
    source = os.path.join(folder, 'example.c')
    with open(source, 'w') as file:
        file.write(text)
    build_shared(folder)
    return build(folder, 'example', source)
