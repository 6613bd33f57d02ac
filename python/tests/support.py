"""What the tests share: a folder of their own, what is on the machine, and the programs."""
import atexit
import importlib.util
import os
import shutil
import socket
import tempfile
import unittest
from unittest import mock

from delgunsai import _core

HERE = os.path.dirname(os.path.abspath(__file__))
TOP = os.path.dirname(os.path.dirname(HERE))
COGTOOLS = os.environ.get('COGTOOLS', os.path.join(TOP, 'crates/cogtools/out/cogtools'))
CORE = os.path.abspath(os.environ.get('DELGUNSAI_CORE', os.path.join(TOP, 'crates/delgunsai_c/out/libdelgunsai_c.a')))
HEAP = os.environ.get('DELGUNSAI_HEAP') or os.path.join(os.path.dirname(os.path.dirname(os.path.realpath(shutil.which('rt') or '/rt'))),
                                                       'c/liblibc_c.a')
EXAMPLE = os.path.join(TOP, 'docs/example.tif')
FOLDER = tempfile.mkdtemp(prefix='delgunsai-')
os.chmod(FOLDER, 0o755)
atexit.register(shutil.rmtree, FOLDER, ignore_errors=True)

GDAL = bool(shutil.which('gdal_translate') and shutil.which('gdaladdo'))
RASTERIO = GDAL and importlib.util.find_spec('rasterio') is not None
TLS = bool(shutil.which('nginx') and shutil.which('openssl'))


def needs(condition, words):
    return unittest.skipUnless(condition, f'{words} is missing')


def free_port():
    with socket.create_server(('127.0.0.1', 0)) as free:
        return free.getsockname()[1]


def in_python():
    """Has Python move all bytes, as over TLS, and see each exchange."""
    def alone(call):
        def carried(core, wire, *many):
            wire.socket, wire.goes_on = -1, False
            call(core, wire, *many)
        return carried
    return mock.patch.multiple(_core.Core, carry=alone(_core.Core.carry), read=alone(_core.Core.read))


class InPython(unittest.TestCase):
    """The same where Python moves all bytes."""

    def setUp(self):
        super().setUp()
        patched = in_python()
        patched.start()
        self.addCleanup(patched.stop)
