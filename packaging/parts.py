# SPDX-License-Identifier: Apache-2.0 OR MIT
"""What the library and the programs of an archive are built from, and under which licences.

The crates of this repository are in crates.txt. The crates of the kit, with the texts of their licences, are on the
machine that packs."""
import functools
import pathlib
import re
import subprocess

TOP = pathlib.Path(__file__).resolve().parent.parent
# each program, and the crate that it is built from
PROGRAMS = {"statsd_schedule": "cadence_run", "statsd_listen": "statsd_listen", "statsd_send": "statsd_send", "statsd_watch": "statsd_watch"}
# what a text of a licence has and the texts of the others lack, with the identifier of SPDX
KNOWN = (
    ("Permission is hereby granted, free of charge", "MIT"),
    ("Apache License", "Apache-2.0"),
    ("Neither the name of", "BSD-3-Clause"),
    ("Redistribution and use in source and binary forms", "BSD-2-Clause"),
    ("UNICODE LICENSE V3", "Unicode-3.0"),
    ("Boost Software License", "BSL-1.0"),
    ("unencumbered software released into the public domain", "Unlicense"),
)
UNKNOWN = "NOASSERTION"


@functools.cache
def kit():
    """Returns the folder of the kit."""
    return pathlib.Path(subprocess.run(["rt", "doc"], stdout=subprocess.PIPE, text=True, check=True).stdout.strip()).parent


@functools.cache
def kit_version():
    """Returns the name of the kit with its version."""
    return subprocess.run(["rt", "version"], stdout=subprocess.PIPE, text=True, check=True).stdout.split()[0]


def code(name):
    """Returns the path of the compiled code of a crate of the kit."""
    return kit() / "rlibs" / f"{name}.rlib" / "toolchain" / "mir.json"


@functools.cache
def own():
    """Returns what each crate of this repository uses."""
    rows = re.findall(r"^(\w+)[^#:\n]*:(.*)$", (TOP / "crates.txt").read_text(), re.M)
    return {name: used.split() for name, used in rows}


def uses(name):
    """Returns the crates that a crate uses itself. Each crate uses the standard library."""
    if name in own():
        return ["std", *own()[name]]
    return re.findall(r"^dep (\w+)$", (kit() / "rlibs" / f"{name}.rlib" / "format").read_text(), re.M)


def kit_crates(roots):
    """Returns the crates of the kit that the roots are built from."""
    found, left = set(), list(roots)
    while left:
        name = left.pop()
        if name not in found:
            found.add(name)
            left += uses(name)
    return sorted(found - own().keys())


def licence_files(name):
    """Returns the texts of the licences of a crate of the kit."""
    return sorted(path for path in (kit() / "rattle" / name).glob("*") if re.match("LICENSE|COPYRIGHT|NOTICE", path.name))


def expression(name):
    """Returns the licences of a crate of the kit as an expression of SPDX. Of two texts for MIT and for Apache one may choose."""
    known = {}
    for path in licence_files(name):
        text = path.read_text(errors="replace")
        if found := next((identifier for phrase, identifier in KNOWN if phrase in text), None):
            known[path.name] = found
    if {"LICENSE-APACHE", "LICENSE-MIT"} <= known.keys():
        del known["LICENSE-APACHE"], known["LICENSE-MIT"]
        known["choice"] = "(Apache-2.0 OR MIT)" if known else "Apache-2.0 OR MIT"
    return " AND ".join(sorted(set(known.values()))) or UNKNOWN


def origin(name):
    """Returns the version of the Rust crate that a crate of the kit is a port of, if its page names one."""
    page = kit() / "rattle" / name / "README.md"
    text = page.read_text(errors="replace") if page.exists() else ""
    found = re.search(rf"`{name.replace('_', '[-_]')}2?` (\d+(?:\.\d+)+)", text)
    return found[1] if found else None
