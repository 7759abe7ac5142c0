"""Package verification codes (SPDX 2.3, clause 7.9): their form, and whether one is the code of the package's files."""

import hashlib
import re

FORM = re.compile(r"([0-9A-Fa-f]{40})(?:[ \t]*\((.*)\))?", re.S)
SHA1 = re.compile(r"SHA1: ([0-9A-Fa-f]{40})")


def is_code(value):
    return FORM.fullmatch(value) is not None


def plain(name):
    """The name of a file, which may begin with `./`."""
    return name.removeprefix("./")


def excluded(value):
    """The files that a code leaves out."""
    names = FORM.fullmatch(value).group(2)
    return set() if names is None else {plain(name.strip(" \t")) for name in names.removeprefix("excludes: ").split(",")}


def value_of(fields, tag):
    return next((value for _, name, value in fields if name == tag), None)


def digest_of(fields):
    """The first SHA1 of a file, in small letters."""
    found = [SHA1.fullmatch(value) for _, tag, value in fields if tag == "FileChecksum"]
    return next((match.group(1).lower() for match in found if match), None)


def ties(parts):
    """What each package contains by relationships."""
    for _, _, fields in parts:
        for _, tag, value in fields:
            if tag == "Relationship":
                left, kind, right = re.split("[ \t]+", value.strip(" \t"))
                if kind in ("CONTAINS", "CONTAINED_BY"):
                    yield (left, right) if kind == "CONTAINS" else (right, left)


def files_of(parts):
    """The sections of the files of each package, by the package's id: those up to the next package, and those that it contains."""
    owner, found, files = None, {}, {}
    for place, (kind, _, fields) in enumerate(parts):
        if kind == "package":
            owner = value_of(fields, "SPDXID")
            found[owner] = set()
        if kind == "file":
            files[value_of(fields, "SPDXID")] = place
            if owner is not None:
                found[owner].add(place)
    for package, file in ties(parts):
        if package in found and file in files:
            found[package].add(files[file])
    return {name: [parts[place][2] for place in sorted(places)] for name, places in found.items()}


def differs(fields, files):
    """Whether a package has a code that isn't that of its files, as far as these have what it is made of."""
    value = value_of(fields, "PackageVerificationCode")
    if value is None or (value_of(fields, "FilesAnalyzed") or "").lower() == "false" or not is_code(value):
        return False
    left_out = excluded(value)
    digests = [digest_of(file) for file in files if plain(value_of(file, "FileName")) not in left_out]
    return None not in digests and hashlib.sha1("".join(sorted(digests)).encode()).hexdigest() != value[:40].lower()
