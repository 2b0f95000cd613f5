"""Builds the wheel and the source archive of this folder, by PEP 517 and PEP 660.

It takes Python alone, so that `pip install` builds without a network. What it tells of the package
stands in pyproject.toml.
"""
import base64
import gzip
import hashlib
import io
import os
import re
import tarfile
import zipfile

ROOT = os.path.dirname(os.path.dirname(os.path.abspath(__file__)))
PACKAGE = 'tunes_archive'
SOURCES = ('pyproject.toml', 'README.md', 'backend', PACKAGE, 'examples', 'tests')
WHEEL = 'Wheel-Version: 1.0\nGenerator: tunes_wheel\nRoot-Is-Purelib: true\nTag: py3-none-any\n'
# The first moment that an archive of files may tell.
MOMENT = (1980, 1, 1, 0, 0, 0)


def read(path):
    with open(os.path.join(ROOT, path), 'rb') as file:
        return file.read()


def told(name):
    """What pyproject.toml tells of the project by a name."""
    found = re.search(rf'^{name} = "([^"]*)"$', read('pyproject.toml').decode('utf-8'), re.M)
    return found[1]


def title():
    return f'{PACKAGE}-{told("version")}'


def metadata():
    """The metadata of the package, with README.md as its description."""
    lines = ('Metadata-Version: 2.1', f'Name: {told("name")}', f'Version: {told("version")}',
             f'Summary: {told("description")}', f'Requires-Python: {told("requires-python")}',
             'Description-Content-Type: text/markdown; charset=UTF-8', '', '')
    return '\n'.join(lines).encode('utf-8') + read('README.md')


def files_of(folder):
    """The files of a folder or a file, as paths from the top of this one."""
    if os.path.isfile(os.path.join(ROOT, folder)):
        return [folder]
    found = []
    for place, folders, names in os.walk(os.path.join(ROOT, folder)):
        folders[:] = sorted(set(folders) - {'__pycache__'})
        found += [os.path.relpath(os.path.join(place, name), ROOT) for name in sorted(names)
                  if not name.endswith('.pyc')]
    return found


def digest(data):
    return base64.urlsafe_b64encode(hashlib.sha256(data).digest()).rstrip(b'=').decode('ascii')


def write_wheel(folder, contents):
    """Writes a wheel of these files, and what a wheel tells of itself; gives its name."""
    about = f'{title()}.dist-info'
    contents = dict(contents)
    contents[f'{about}/METADATA'] = metadata()
    contents[f'{about}/WHEEL'] = WHEEL.encode('ascii')
    record = [f'{path},sha256={digest(data)},{len(data)}' for path, data in contents.items()]
    record.append(f'{about}/RECORD,,')
    contents[f'{about}/RECORD'] = ('\n'.join(record) + '\n').encode('utf-8')
    name = f'{title()}-py3-none-any.whl'
    with zipfile.ZipFile(os.path.join(folder, name), 'w', zipfile.ZIP_DEFLATED) as wheel:
        for path, data in contents.items():
            entry = zipfile.ZipInfo(path, MOMENT)
            entry.external_attr = 0o644 << 16
            entry.compress_type = zipfile.ZIP_DEFLATED
            wheel.writestr(entry, data)
    return name


# WHAT A BUILDER CALLS

def build_wheel(wheel_directory, config_settings=None, metadata_directory=None):
    del config_settings, metadata_directory
    return write_wheel(wheel_directory, {path: read(path) for path in files_of(PACKAGE)})


def build_editable(wheel_directory, config_settings=None, metadata_directory=None):
    del config_settings, metadata_directory
    return write_wheel(wheel_directory, {f'{PACKAGE}.pth': ROOT.encode('utf-8') + b'\n'})


def build_sdist(sdist_directory, config_settings=None):
    del config_settings
    name = f'{title()}.tar.gz'
    contents = {path: read(path) for folder in SOURCES for path in files_of(folder)}
    contents['PKG-INFO'] = metadata()
    with open(os.path.join(sdist_directory, name), 'wb') as file, gzip.GzipFile(
            filename='', mode='wb', fileobj=file, mtime=0) as packed, tarfile.open(
                mode='w', fileobj=packed, format=tarfile.PAX_FORMAT) as tar:
        for path, data in contents.items():
            entry = tarfile.TarInfo(f'{title()}/{path}')
            entry.size = len(data)
            tar.addfile(entry, io.BytesIO(data))
    return name
