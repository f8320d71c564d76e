"""Builds the wheel of the package fihroste, with nothing but the standard library. pip calls it, and so does `build`.

The extension is linked with the static library of crates/isort_c, and the wheel carries the program. Both are proved before
they are built, which takes some minutes. A second wheel, of the distribution isort, has isort's name for the package."""

import base64
import hashlib
import os
import shutil
import subprocess
import sys
import sysconfig
import tempfile
import zipfile
from pathlib import Path
from typing import Dict, Iterator, List, Mapping, NoReturn, Optional, Tuple

import proved

HERE = Path(__file__).resolve().parent
HEADER_FOLDER = proved.TOP / "c"

NAME = "fihroste"
VERSION_FILE = proved.TOP / "VERSION"
# Outside the repository there is none, and nothing is built: expect_tools says so.
VERSION = VERSION_FILE.read_text().strip() if VERSION_FILE.is_file() else "0"
TAG = "cp38-abi3-linux_x86_64"
METADATA = f"""Metadata-Version: 2.1
Name: {NAME}
Version: {VERSION}
Summary: Sorts, checks and lists the import statements of Python texts, by proved code
License: MIT
License-File: LICENSE
Keywords: imports,sort,isort,lint,formatter
Classifier: Development Status :: 5 - Production/Stable
Classifier: Environment :: Console
Classifier: Framework :: Flake8
Classifier: Intended Audience :: Developers
Classifier: License :: OSI Approved :: MIT License
Classifier: Operating System :: POSIX :: Linux
Classifier: Programming Language :: Python :: 3
Classifier: Programming Language :: Python :: 3 :: Only
Classifier: Programming Language :: Python :: Implementation :: CPython
Classifier: Topic :: Software Development :: Quality Assurance
Classifier: Typing :: Typed
Requires-Python: >=3.8
Description-Content-Type: text/markdown

"""
ENTRY_POINTS = """[console_scripts]
fihroste = fihroste.__main__:main

[flake8.extension]
I00 = fihroste.flake8:Checker

[pylsp]
fihroste = fihroste.pylsp
"""

# The distribution that has isort's name: its version is that of the isort 5 whose names it has.
AS_NAME = "isort"
AS_VERSION = f"5.6.4+{NAME}.{VERSION}"
AS_TAG = "py3-none-any"
AS_METADATA = f"""Metadata-Version: 2.1
Name: {AS_NAME}
Version: {AS_VERSION}
Summary: The package {NAME} under the name of isort, which it stands in for: this is not isort
License: MIT
License-File: LICENSE
Requires-Python: >=3.8
Requires-Dist: {NAME} (=={VERSION})
Description-Content-Type: text/markdown

"""
AS_ENTRY_POINTS = f"[console_scripts]\n{AS_NAME} = {NAME}.__main__:main\n"
WHEEL = f"Wheel-Version: 1.0\nGenerator: {NAME}\nRoot-Is-Purelib: false\nTag: {TAG}\n"
AS_WHEEL = f"Wheel-Version: 1.0\nGenerator: {NAME}\nRoot-Is-Purelib: true\nTag: {AS_TAG}\n"
FLAGS = ["-O2", "-Wall", "-Wextra", "-fPIC", "-shared"]
# A zip file has no times before this one. With a fixed one, equal contents make equal wheels.
TIME = (1980, 1, 1, 0, 0, 0)


def fail(words: str) -> NoReturn:
    sys.exit(f"{NAME}: {words}")


def get_requires_for_build_wheel(config_settings: Optional[Mapping[str, str]] = None) -> List[str]:
    """A hook of pip's: nothing has to be installed first."""
    return []


def build_sdist(sdist_directory: str, config_settings: Optional[Mapping[str, str]] = None) -> NoReturn:
    """A hook of pip's: the sources are the whole repository, so there is none."""
    fail("there is no source distribution: install from the repository")


def build_wheel(
    wheel_directory: str,
    config_settings: Optional[Mapping[str, str]] = None,
    metadata_directory: Optional[str] = None,
) -> str:
    """A hook of pip's: builds the wheel into a folder, and answers its name.

    The settings `library` and `program` name files other than those that are built here."""
    settings = config_settings or {}
    expect_tools()
    library, program = settings.get("library", ""), settings.get("program", "")
    try:
        proved.build(library=not library, program=not program)
    except proved.NotProved as refusal:
        fail(str(refusal))
    library, program = library or str(proved.LIBRARY), program or str(proved.PROGRAM)
    with tempfile.TemporaryDirectory() as work:
        extension = os.path.join(work, "_fihroste.abi3.so")
        compile_extension(extension, library)
        return write_wheel(wheel_directory, extension, program)


def expect_tools() -> None:
    """Ends with a line that says what is missing."""
    if not (proved.TOP / "crates.txt").is_file():
        fail("build it where it stands, in the repository: pip does so since 21.3")
    if not shutil.which(compiler()[0]):
        fail(f"no C compiler: {compiler()[0]} is not on the PATH")
    if not any((Path(folder) / "Python.h").is_file() for folder in include_folders()):
        fail(f"no Python.h in {include_folders()[0]}: install Python's headers (Debian: python3-dev)")
    if not shutil.which("rt"):
        fail("no rt on the PATH: README.md names the toolchain to install")


def compiler() -> List[str]:
    return os.environ.get("CC", "cc").split() or ["cc"]


def include_folders() -> List[str]:
    paths = sysconfig.get_paths()
    return list(dict.fromkeys((paths["include"], paths["platinclude"])))


def compile_extension(extension: str, library: str) -> None:
    """Compiles and links the extension. CC and CFLAGS are heeded."""
    exports = f"{extension}.map"
    with open(exports, "w") as words:
        words.write("{ global: PyInit__fihroste; local: *; };\n")
    # A library from elsewhere may have its own header beside it.
    folders = (os.path.dirname(library), str(HEADER_FOLDER), *include_folders())
    includes = [f"-I{folder}" for folder in folders]
    heap = str(proved.kit() / "c" / "liblibc_c.a")
    flags = [*FLAGS, *os.environ.get("CFLAGS", "").split()]
    link = [library, heap, f"-Wl,--version-script={exports}"]
    command = [*compiler(), *flags, *includes, "-o", extension, str(HERE / "_fihroste.c"), *link]
    if subprocess.run(command).returncode != 0:
        fail("the extension was not built: the lines above say why")


# The name, the contents and the permissions of a file of a wheel.
Entry = Tuple[str, bytes, int]


def package_files(extension: str, program: str) -> Iterator[Entry]:
    """The files of the wheel of fihroste."""
    for path in sorted((HERE / NAME).rglob("*")):
        if path.suffix in (".py", ".pyi", ".typed"):
            yield path.relative_to(HERE).as_posix(), path.read_bytes().replace(b"@VERSION@", VERSION.encode()), 0o644
    yield f"{NAME}/{os.path.basename(extension)}", Path(extension).read_bytes(), 0o755
    yield f"{NAME}/isort", Path(program).read_bytes(), 0o755


def as_isort_files() -> Iterator[Entry]:
    """The files of the wheel of isort."""
    for path in sorted((HERE / "as_isort").glob("*.py")):
        yield f"{AS_NAME}/{path.name}", path.read_bytes(), 0o644


def info_files(about: str, metadata: str, wheel: str, entry_points: str) -> Iterator[Entry]:
    """What a wheel tells of itself, except its list of files, in the folder `about`."""
    readme = (HERE / "README.md").read_text(encoding="utf-8")
    yield f"{about}/LICENSE", (proved.TOP / "LICENSE").read_bytes(), 0o644
    yield f"{about}/METADATA", f"{metadata}{readme}".encode(), 0o644
    yield f"{about}/WHEEL", wheel.encode(), 0o644
    yield f"{about}/entry_points.txt", entry_points.encode(), 0o644


def write_wheel(folder: str, extension: str, program: str) -> str:
    """Writes the wheel of fihroste, and answers its name."""
    name = f"{NAME}-{VERSION}"
    info = info_files(f"{name}.dist-info", METADATA, WHEEL, ENTRY_POINTS)
    return write_files(folder, name, TAG, [*package_files(extension, program), *info])


def write_as_isort(folder: str) -> str:
    """Writes the wheel of isort, and answers its name."""
    name = f"{AS_NAME}-{AS_VERSION}"
    info = info_files(f"{name}.dist-info", AS_METADATA, AS_WHEEL, AS_ENTRY_POINTS)
    return write_files(folder, name, AS_TAG, [*as_isort_files(), *info])


def write_files(folder: str, name: str, tag: str, files: List[Entry]) -> str:
    """Writes a wheel of these files, with their list, and answers its name."""
    rows: List[str] = []
    record = f"{name}.dist-info/RECORD"
    with zipfile.ZipFile(os.path.join(folder, f"{name}-{tag}.whl"), "w", zipfile.ZIP_DEFLATED) as wheel:
        for path, contents, mode in files:
            digest = base64.urlsafe_b64encode(hashlib.sha256(contents).digest()).rstrip(b"=").decode()
            rows.append(f"{path},sha256={digest},{len(contents)}\n")
            add(wheel, path, contents, mode)
        add(wheel, record, "".join([*rows, f"{record},,\n"]).encode(), 0o644)
    return f"{name}-{tag}.whl"


def add(wheel: zipfile.ZipFile, path: str, contents: bytes, mode: int) -> None:
    entry = zipfile.ZipInfo(path, TIME)
    entry.external_attr = (0o100000 | mode) << 16
    entry.compress_type = zipfile.ZIP_DEFLATED
    wheel.writestr(entry, contents)


def main(words: List[str]) -> None:
    """Builds the wheels into the folder dist beside this file, and prints their paths: build [--as-isort] [NAME=FILE..]."""
    settings: Dict[str, str] = dict(word.split("=", 1) for word in words if word != "--as-isort")
    dist = HERE / "dist"
    dist.mkdir(exist_ok=True)
    print(dist / build_wheel(str(dist), settings))
    if "--as-isort" in words:
        print(dist / write_as_isort(str(dist)))
