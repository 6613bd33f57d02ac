"""pip builds the package, or says what is missing."""
import glob
import os
import re
import shutil
import subprocess
import sys
import tempfile
import unittest

import delgunsai
from support import CORE, EXAMPLE, FOLDER, TOP

PIP = [sys.executable, '-m', 'pip', 'install', '--no-build-isolation', '--no-deps', '--no-index']


class Built(unittest.TestCase):
    def setUp(self):
        self.place = tempfile.mkdtemp(dir=FOLDER)
        self.source = os.path.join(self.place, 'source')
        shutil.copytree(os.path.join(TOP, 'python'), self.source,
                        ignore=shutil.ignore_patterns('build', '*.egg-info', '__pycache__', '*.so'))
        shutil.copy(os.path.join(TOP, 'include/delgunsai.h'), self.source)

    def pip(self, *words, **variables):
        variables = {**os.environ, 'DELGUNSAI_CORE': CORE, 'PIP_ROOT_USER_ACTION': 'ignore', **variables}
        return subprocess.run([*PIP, *words], capture_output=True, text=True,
                              env={name: word for name, word in variables.items() if word is not None})

    def refused(self, words, **variables):
        done = self.pip('--target', os.path.join(self.place, 'nowhere'), self.source, **variables)
        self.assertNotEqual(done.returncode, 0)
        self.assertIn(words, done.stdout + done.stderr)

    def test_missing_library(self):
        self.refused('missing: /nowhere/libdelgunsai_c.a: run `rt lib`', DELGUNSAI_CORE='/nowhere/libdelgunsai_c.a')
        self.refused('missing: /nowhere/heap.a', DELGUNSAI_HEAP='/nowhere/heap.a')
        self.refused('missing: libdelgunsai_c.a: set DELGUNSAI_CORE', DELGUNSAI_CORE=None)
        crate = os.path.join(self.place, 'crates/delgunsai_c')
        os.makedirs(crate)
        self.refused(f'missing: {crate}/out/libdelgunsai_c.a: run `rt lib`', DELGUNSAI_CORE=None)

    def test_archives_that_lack_calls(self):
        """They are told by one line when the package is built, and not at import."""
        empty = os.path.join(self.place, 'empty.a')
        subprocess.run(['ar', 'rcs', empty], check=True)
        for variable, lacks in (('DELGUNSAI_CORE', r'cog_client_begin and \d+ more'), ('DELGUNSAI_HEAP', r'rattle_alloc and \d+ more')):
            done = self.pip('--target', os.path.join(self.place, 'nowhere'), self.source, **{variable: empty})
            self.assertNotEqual(done.returncode, 0)
            self.assertRegex(done.stdout + done.stderr, f'(?m)^ *missing: {lacks}, in .*: name whole archives of this version$')
        part = os.path.join(self.place, 'part.a')
        shutil.copy(CORE, part)
        members = subprocess.run(['ar', 't', part], check=True, capture_output=True, text=True).stdout.split()
        subprocess.run(['ar', 'x', part, '--output', self.place], check=True)
        for member in members:
            subprocess.run(['objcopy', '--redefine-sym', 'cog_client_info=cog_other', os.path.join(self.place, member)], check=True)
        os.remove(part)
        subprocess.run(['ar', 'rcs', part, *members], check=True, cwd=self.place)
        self.refused('missing: cog_client_info, in ', DELGUNSAI_CORE=part)

    def test_version(self):
        self.assertEqual(self.pip('--target', self.place, self.source).returncode, 0)
        with open(os.path.join(TOP, 'include/delgunsai.h')) as file:
            self.assertIn(f'#define DELGUNSAI_VERSION "{delgunsai.__version__}"\n', file.read())
        self.assertEqual(len(glob.glob(os.path.join(self.place, f'delgunsai-{delgunsai.__version__}.dist-info'))), 1)
        names = subprocess.run(['nm', '-D', '--defined-only', os.path.join(self.place, 'delgunsai/libdelgunsai.so')], capture_output=True, text=True)
        self.assertEqual({line.split()[2].split('_')[0] for line in names.stdout.splitlines()}, {'cog', 'delgunsai'})

    def test_wheel(self):
        """One command makes it. It is used where neither the kit nor a compiler is."""
        made = subprocess.run([sys.executable, os.path.join(TOP, 'python/build_wheel'), self.place], capture_output=True, text=True,
                              env={**os.environ, 'DELGUNSAI_CORE': CORE})
        name = f'delgunsai-{delgunsai.__version__}-py3-none-manylinux_2_17_x86_64.whl'
        self.assertEqual((made.stdout, made.stderr), (os.path.join(self.place, name) + '\n', ''))
        place, bare = os.path.join(self.place, 'environment'), {'PATH': self.place, 'HOME': self.place}
        subprocess.run([sys.executable, '-m', 'venv', '--without-pip', '--system-site-packages', place], check=True)
        program = os.path.join(place, 'bin/python')
        done = subprocess.run([program, '-m', 'pip', 'install', '-q', '--no-index', made.stdout.strip()], capture_output=True, text=True, env=bare)
        self.assertEqual(done.returncode, 0, done.stderr)
        words = f'import delgunsai; print(delgunsai.__file__); print(delgunsai.open({EXAMPLE!r}).read(x=24, y=30, width=4, height=2).tolist())'
        done = subprocess.run([program, '-c', words], capture_output=True, text=True, env=bare, cwd=self.place)
        self.assertEqual(done.stderr, '')
        file, samples = done.stdout.splitlines()
        self.assertTrue(file.startswith(place), file)
        self.assertEqual(samples, '[[216, 221, 226, 231], [217, 222, 227, 232]]')
        empty = os.path.join(self.place, 'empty.a')
        subprocess.run(['ar', 'rcs', empty], check=True)
        made = subprocess.run([sys.executable, os.path.join(TOP, 'python/build_wheel'), self.place], capture_output=True, text=True,
                              env={**os.environ, 'DELGUNSAI_CORE': empty})
        self.assertNotEqual(made.returncode, 0)
        self.assertRegex(made.stderr, r'\Abuild_wheel: missing: cog_client_begin and \d+ more, in .*\n\Z')

    def test_paths_of_another_folder(self):
        """pip builds in a folder of its own, where the path that was meant leads elsewhere."""
        self.refused("DELGUNSAI_CORE is 'out/libdelgunsai_c.a': give the whole path", DELGUNSAI_CORE='out/libdelgunsai_c.a')
        self.refused("DELGUNSAI_HEAP is 'heap.a': give the whole path", DELGUNSAI_HEAP='heap.a')

    def test_compiler(self):
        self.refused('missing: no-compiler', CC='no-compiler -O2')
        self.refused("""CC is 'cc "-O2': No closing quotation""", CC='cc "-O2')
        for words in 'cc -O2', ' ', '':
            place = tempfile.mkdtemp(dir=self.place)
            done = self.pip('--target', place, self.source, CC=words)
            self.assertEqual(done.returncode, 0, done.stderr)
            self.assertTrue(os.path.exists(os.path.join(place, 'delgunsai/libdelgunsai.so')))

    def test_variables_of_no_text(self):
        """They count as not set."""
        self.refused('missing: libdelgunsai_c.a: set DELGUNSAI_CORE', DELGUNSAI_CORE='')
        self.refused('missing: rt: put the kit', DELGUNSAI_HEAP='', CC=shutil.which('cc'), PATH=self.place)

    def test_library_of_other_sources(self):
        """It isn't loaded where its number or its struct is another one, or where it says neither."""
        wire = os.path.join(self.source, 'wire.c')
        with open(wire) as file:
            text = file.read()
        for here, there in ((re.search('ABI = [0-9]+ ', text)[0], 'ABI = 0 '), ('size, begin, end;', 'size, begin, end, more;'), ('tag_length;', 'tag_length, more;'),
                            ('delgunsai_abi', 'delgunsai_number'), ('delgunsai_wire_size', 'delgunsai_size'),
                            ('delgunsai_many_size', 'delgunsai_count')):
            self.assertIn(here, text)
            with open(wire, 'w') as file:
                file.write(text.replace(here, there))
            place = tempfile.mkdtemp(dir=self.place)
            self.assertEqual(self.pip('--target', place, self.source).returncode, 0)
            done = subprocess.run([sys.executable, '-c', 'import delgunsai'], capture_output=True, text=True,
                                  env={**os.environ, 'PYTHONPATH': place})
            library = os.path.join(place, 'delgunsai/libdelgunsai.so')
            self.assertEqual(done.stderr.splitlines()[-1], f'ImportError: {library} is of another version than the modules beside it: '
                                                           '`pip install` the package again')

    def test_editable(self):
        """The sources themselves are imported, with the library beside them."""
        done = self.pip('--prefix', os.path.join(self.place, 'prefix'), '--editable', self.source)
        self.assertEqual(done.returncode, 0, done.stderr)
        site, = {os.path.dirname(path) for path in glob.glob(os.path.join(self.place, 'prefix/**/*.pth'), recursive=True)}
        program = (f'import site; site.addsitedir({site!r}); import delgunsai; '
                   f'print(delgunsai.__file__, delgunsai.open_file({EXAMPLE!r}).levels)')
        done = subprocess.run([sys.executable, '-c', program], capture_output=True, text=True, cwd=self.place,
                              env={key: word for key, word in os.environ.items() if key != 'PYTHONPATH'})
        with delgunsai.open_file(EXAMPLE) as file:
            self.assertEqual(done.stdout, f'{os.path.join(self.source, "delgunsai/__init__.py")} {file.levels}\n', done.stderr)
