"""The Python package, installed for tests into a folder of its own."""
import importlib.util, os, shutil, subprocess, sys

from products import CORE, TOP

TESTS = os.path.join(TOP, 'python/tests')

def missing_for_package():
    """What isn't there of what the package is installed with."""
    return [name for name in ('numpy', 'pip', 'setuptools') if importlib.util.find_spec(name) is None]

def seek_numpy():
    """Goes on in Debian's Python, where this one lacks numpy."""
    if importlib.util.find_spec('numpy') is None and sys.executable != '/usr/bin/python3' and os.path.exists('/usr/bin/python3'):
        os.execv('/usr/bin/python3', ['/usr/bin/python3', *sys.argv])

def install(place):
    """Installs the package into this folder from a copy of its own, and puts it and the tests' modules first among the paths."""
    source = os.path.join(place, 'source')
    shutil.copytree(os.path.join(TOP, 'python'), source, ignore=shutil.ignore_patterns('build', '*.egg-info', '__pycache__', '*.so'))
    shutil.copy(os.path.join(TOP, 'include/delgunsai.h'), source)
    done = subprocess.run([sys.executable, '-m', 'pip', 'install', '-q', '--no-build-isolation', '--no-deps', '--no-index', '--target',
                           os.path.join(place, 'package'), source], capture_output=True, text=True,
                          env={**os.environ, 'DELGUNSAI_CORE': CORE, 'PIP_ROOT_USER_ACTION': 'ignore'})
    if done.returncode != 0:
        sys.exit(done.stdout + done.stderr)
    sys.path[:0] = [os.path.join(place, 'package'), TESTS]
