# SPDX-License-Identifier: Apache-2.0 OR MIT
"""Builds the wheel: the extension module, which contains the library, and the Python files. It also makes the source
distribution, which is built over an unpacked archive.

The library is in the folder that CADENCE_LIB names, or otherwise in ../../lib, as in the archive. If that folder has a
folder of the processor, such as aarch64-linux-gnu, the library there is taken. The header is in the folder `include` of
the archive, or beside the folder of the library. Both have to have the same version. CC names the compiler, which may be
one for another processor.
"""
import base64
import gzip
import hashlib
import io
import json
import os
import pathlib
import re
import shlex
import subprocess
import sys
import sysconfig
import tarfile
import tempfile
import tomllib
import zipfile

HERE = pathlib.Path(__file__).resolve().parent


def compiler():
    """Returns the words that call the compiler."""
    return shlex.split(os.environ.get("CC") or sysconfig.get_config_var("CC") or "gcc")


def processor():
    """Returns the name of the processor for which the compiler makes code, as Linux and wheels write it."""
    said = subprocess.run([*compiler(), "-dumpmachine"], stdout=subprocess.PIPE, text=True, check=True).stdout
    return said.partition("-")[0]


def library():
    """Returns the path of the library."""
    named = os.environ.get("CADENCE_LIB")
    folder = (pathlib.Path(named) if named else HERE.parent.parent / "lib").resolve()
    for place in (folder / f"{processor()}-linux-gnu", folder):
        if (path := place / "libcadence_c.a").exists():
            return path
    told = f"CADENCE_LIB is {named}" if named else "CADENCE_LIB is not set"
    sys.exit(f"statsd-proved: {told}, and libcadence_c.a is not in {folder}: set CADENCE_LIB to the folder that it is in, "
             "as in CADENCE_LIB=/opt/cadence_c-0.9.0/lib")


def archive():
    """Returns the folder of the archive, which has the header in its folder `include`."""
    beside = library().parent.parent
    for folder in (HERE.parent.parent, beside, beside.parent):
        if (folder / "include" / "cadence.h").exists():
            return folder
    sys.exit(f"statsd-proved: cadence.h is neither in ../../include nor in {beside / 'include'}: set CADENCE_LIB to the folder lib of "
             "the archive, beside which its include stands")


def header():
    """Returns the path of the header."""
    return archive() / "include" / "cadence.h"


def version():
    """Returns the version of the header, which is that of the library."""
    return re.search(r'#define CADENCE_VERSION "(.*)"', header().read_text())[1]


def checked():
    """Returns the path of the library, which has the version of the header."""
    if f"cadence_c {version()}\0".encode() not in library().read_bytes():
        sys.exit(f"statsd-proved: {library()} is not version {version()} of the library, as {header()} is: take both from one archive")
    return library()


def compiled(to):
    """Compiles the extension module. It has only calls of the stable interface of Python, whose types are as long on each
    processor with 64 bits, so the headers of this Python serve for other processors too."""
    sources = sorted(str(path) for path in (HERE / "c").glob("*.c"))
    subprocess.run([*compiler(), "-std=gnu11", "-O2", "-Wall", "-Wextra", "-fPIC", "-fvisibility=hidden", "-shared",
                    f"-I{header().parent}", f"-I{sysconfig.get_paths()['include']}", *sources, str(checked()),
                    "-Wl,--exclude-libs,ALL", "-o", str(to)], check=True)
    return to.read_bytes()


def tag_of(module):
    """Returns the tag of the wheel: any CPython from 3.11 on, and any Linux with the version of glibc that the module needs."""
    newest = max(int(minor) for minor in re.findall(rb"GLIBC_2\.(\d+)", module))
    return f"cp311-abi3-manylinux_2_{newest}_{processor()}"


def linked():
    """Returns the list of the archive (SPDX) of what is linked into the library: the name and the licence of each part."""
    listed = json.loads((archive() / "licenses" / "sbom.spdx.json").read_text())
    inside = {relation["relatedSpdxElement"] for relation in listed["relationships"]
              if (relation["spdxElementId"], relation["relationshipType"]) == ("SPDXRef-libcadence-c", "STATIC_LINK")}
    return {part["name"]: part["licenseDeclared"] for part in listed["packages"] if part["SPDXID"] in inside}


def expression():
    """Returns the licences of the wheel as an expression of SPDX: those of this project, and of each part that names one."""
    own, *others = dict.fromkeys([project()["license"], *sorted(licence for licence in linked().values() if licence != "NOASSERTION")])
    return " AND ".join([f"({own})", *(f"({other})" if " " in other else other for other in others)])


def licences():
    """Yields the name and the bytes of each text of a licence of what the wheel contains."""
    for path in sorted(archive().glob("LICENSE*")):
        yield path.name, path.read_bytes()
    for name in sorted(linked()):
        for path in sorted((archive() / "licenses" / name).glob("*")):
            yield f"licenses/{name}/{path.name}", path.read_bytes()


def project():
    """Returns what pyproject.toml says of the project."""
    return tomllib.loads((HERE / "pyproject.toml").read_text())["project"]


def metadata(licence, texts):
    """Returns the metadata of the project, with an expression of its licences and the names of their texts."""
    said = project()
    lines = ["Metadata-Version: 2.4", f"Name: {said['name']}", f"Version: {version()}", f"Summary: {said['description']}",
             f"Author: {said['authors'][0]['name']}", f"License-Expression: {licence}", *map("License-File: {}".format, texts),
             f"Keywords: {','.join(said['keywords'])}", f"Requires-Python: {said['requires-python']}",
             *map("Classifier: {}".format, said["classifiers"]), "Description-Content-Type: text/markdown", ""]
    return "\n".join(lines).encode() + b"\n" + (HERE / said["readme"]).read_bytes()


def files(module, tag):
    """Yields the name and the bytes of each file of the wheel except RECORD."""
    information = f"statsd_proved-{version()}.dist-info"
    for path in sorted((HERE / "src" / "statsd_proved").iterdir()):
        if path.suffix in (".py", ".pyi", ".typed"):
            yield f"statsd_proved/{path.name}", path.read_bytes()
    yield "statsd_proved/_core.abi3.so", module
    texts = dict(licences())
    for name, data in texts.items():
        yield f"{information}/licenses/{name}", data
    yield f"{information}/METADATA", metadata(expression(), texts)
    wheel = ["Wheel-Version: 1.0", "Generator: build_wheel", "Root-Is-Purelib: false", f"Tag: {tag}", ""]
    yield f"{information}/WHEEL", "\n".join(wheel).encode()


def build_wheel(wheel_directory, config_settings=None, metadata_directory=None):
    """Writes the wheel, and returns its name."""
    with tempfile.TemporaryDirectory() as folder:
        module = compiled(pathlib.Path(folder) / "_core.abi3.so")
    tag = tag_of(module)
    name = f"statsd_proved-{version()}-{tag}.whl"
    record = f"statsd_proved-{version()}.dist-info/RECORD"
    rows = []
    with zipfile.ZipFile(os.path.join(wheel_directory, name), "w", zipfile.ZIP_DEFLATED) as wheel:
        for path, data in files(module, tag):
            digest = base64.urlsafe_b64encode(hashlib.sha256(data).digest()).rstrip(b"=").decode()
            rows.append(f"{path},sha256={digest},{len(data)}\n")
            wheel.writestr(zipfile.ZipInfo(path), data)
        wheel.writestr(zipfile.ZipInfo(record), "".join([*rows, f"{record},,\n"]))
    return name


def sources():
    """Yields the name and the bytes of each file of the source distribution."""
    texts = {path.name: path.read_bytes() for path in sorted(archive().glob("LICENSE*"))}
    yield "PKG-INFO", metadata(project()["license"], texts)
    yield from texts.items()
    for pattern in ("*.toml", "*.md", "*.py", "c/*", "src/statsd_proved/*", "tests/*"):
        for path in sorted(HERE.glob(pattern)):
            if path.is_file():
                yield str(path.relative_to(HERE)), path.read_bytes()


def build_sdist(sdist_directory, config_settings=None):
    """Writes the source distribution, and returns its name. It has no library, so CADENCE_LIB has to name the folder lib of
    an unpacked archive when it is built."""
    name = f"statsd_proved-{version()}"
    path = os.path.join(sdist_directory, f"{name}.tar.gz")
    with open(path, "wb") as file, gzip.GzipFile(fileobj=file, mode="wb", mtime=0, filename="") as packed, \
            tarfile.open(fileobj=packed, mode="w", format=tarfile.PAX_FORMAT) as tar:
        for inside, data in sources():
            entry = tarfile.TarInfo(f"{name}/{inside}")
            entry.size = len(data)
            tar.addfile(entry, io.BytesIO(data))
    return os.path.basename(path)
