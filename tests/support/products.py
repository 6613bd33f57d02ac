"""The program and the library that the tests run."""
import os, subprocess, sys

TOP = os.path.dirname(os.path.dirname(os.path.dirname(os.path.abspath(__file__))))

def product(variable, crate, name):
    """The file that this variable of the environment names, or else the one of this name that the crate builds."""
    return os.path.abspath(os.environ.get(variable, os.path.join(TOP, 'crates', crate, 'out', name)))

def build_missing(variable, crate, name):
    """Proves and builds what the crate builds, unless it is there, or the environment names another file."""
    path = product(variable, crate, name)
    if variable in os.environ or os.path.exists(path):
        return
    print(f'{os.path.basename(sys.argv[0])}: proving {crate} first, for up to half an hour; {variable}=PATH names one that is built', file=sys.stderr)
    subprocess.run([os.path.join(TOP, 'prove'), crate], check=True, stdout=sys.stderr)

PROGRAM = product('COGTOOLS', 'cogtools', 'cogtools')
CORE = product('DELGUNSAI_CORE', 'delgunsai_c', 'libdelgunsai_c.a')

def build_program():
    build_missing('COGTOOLS', 'cogtools', 'cogtools')

def build_core():
    build_missing('DELGUNSAI_CORE', 'delgunsai_c', 'libdelgunsai_c.a')
