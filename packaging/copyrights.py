# SPDX-License-Identifier: Apache-2.0 OR MIT
"""Appends to the file `copyright` of Debian's packages what is linked in, with the holders and the terms of each part."""
import json
import re


def indented(text):
    """Returns a text as the lines of a field."""
    return "".join(f" {line.rstrip() or '.'}\n" for line in text.strip().splitlines())


def holders(text):
    """Returns the holders of the copyright that the text of a licence names."""
    found = [line.strip(" .") for line in re.findall(r"^\s*Copyright (?:\([cC]\) |©\s*)?(.+)$", text, re.M)]
    return [line for line in found if re.search(r"\d{4}|authors|contributors", line, re.I) and "[" not in line and "{" not in line]


def stanzas(name, licence, paths):
    """Yields the paragraphs of a part: its holders, and the text of each licence that isn't the Apache License, which Debian has."""
    texts = {path.name: path.read_text(errors="replace") for path in paths}
    named = list(dict.fromkeys(holder for text in texts.values() for holder in holders(text)))
    own = {file: text for file, text in texts.items() if "Apache License" not in text[:300]}
    terms = " and ".join(f"{name}-{file}" for file in own) or "Apache-2.0"
    comment = f"The terms are {licence}, in the notation of SPDX."
    yield f"Files: {name}/*\nCopyright: " + "\n           ".join(named or ["The authors of the Rust crate"]) + f"\nLicense: {terms}\nComment: {comment}\n"
    for file, text in own.items():
        yield f"License: {name}-{file}\n{indented(text)}"


def append(path, licences):
    """Appends the text of the MIT License, which Debian calls Expat, and the paragraphs of the parts that the list of the
    archive names and whose texts are in the folder of licences."""
    listed = json.loads((licences / "sbom.spdx.json").read_text())
    terms = (licences.parent / "LICENSE-MIT").read_text()
    with open(path, "a") as file:
        file.write("\nLicense: Expat\n" + indented(terms[terms.index("Permission is hereby granted"):]))
        for part in listed["packages"]:
            paths = sorted((licences / part["name"]).glob("*"))
            if paths:
                file.writelines("\n" + stanza for stanza in stanzas(part["name"], part["licenseDeclared"], paths))
