"""Times documents in JSON: python3 bench/convert.py PROGRAM FOLDER

Four documents: 9,900 packages; 10,000 files with 40,000 relationships; one that is left out almost entirely; and 9,900 components of
CycloneDX. For each, the whole process of `desk convert`, with its peak as a multiple of the document's bytes, compared with Python's json on
the same text; and `desk import` into a new file in shared memory, compared with an import of the tag-value document that it converts to.
Each time is the least of several runs, which alternate.
"""

import json
import os
import subprocess
import sys
import tempfile
import time

MEMORY = "/dev/shm"
RUNS = 9
NEEDED = {
    "spdxVersion": "SPDX-2.3", "dataLicense": "CC0-1.0", "SPDXID": "SPDXRef-DOCUMENT", "name": "large", "documentNamespace": "https://example.org/large",
    "creationInfo": {"created": "2025-01-01T00:00:00Z", "creators": ["Tool: bench"]},
}

BOM = {"bomFormat": "CycloneDX", "specVersion": "1.6", "serialNumber": "urn:uuid:3e671687-395b-41f5-a30f-a58921a69b79", "version": 1}


def packages():
    return {"packages": [
        {"name": f"package-number-{k}", "SPDXID": f"SPDXRef-Package-{k}", "versionInfo": f"1.{k}", "filesAnalyzed": False,
         "downloadLocation": f"https://example.org/downloads/package-{k}.tar.gz", "licenseConcluded": "MIT OR Apache-2.0",
         "licenseDeclared": "NOASSERTION", "copyrightText": f"Copyright 2020\nThe authors of {k}\n"}
        for k in range(9_900)
    ]}


def relationships():
    ends = ("spdxElementId", "relationshipType", "relatedSpdxElement")
    pairs = [(f"SPDXRef-F{k % 10_000}", "DEPENDS_ON", f"SPDXRef-F{k * 7 % 10_000}") for k in range(40_000)]
    files = [{"fileName": f"./f{k}", "SPDXID": f"SPDXRef-F{k}", "checksums": [{"algorithm": "SHA1", "checksumValue": f"{k:040x}"}]} for k in range(10_000)]
    return {"files": files, "relationships": [dict(zip(ends, pair)) for pair in pairs]}


def components():
    """A CycloneDX document of some 10 MB: each component depends on two others."""
    listed = [
        {"type": "library", "bom-ref": f"pkg:npm/package-number-{k}@1.{k}", "name": f"package-number-{k}", "version": f"1.{k}", "scope": "required",
         "purl": f"pkg:npm/package-number-{k}@1.{k}", "licenses": [{"license": {"id": "MIT"}}, {"license": {"id": "Apache-2.0"}}],
         "copyright": f"Copyright 2020\nThe authors of {k}\n", "properties": [{"name": "path", "value": "node_modules/" * 20}],
         "externalReferences": [{"type": "vcs", "url": f"https://example.org/{k}"}, {"type": "website", "url": f"https://example.org/{k}"}]}
        for k in range(9_900)
    ]
    refs = [one["bom-ref"] for one in listed]
    ties = [{"ref": ref, "dependsOn": [refs[k * 7 % len(refs)], refs[k * 11 % len(refs)]]} for k, ref in enumerate(refs)]
    return {"components": listed, "dependencies": ties}


def left_out():
    annotation = {"annotationDate": "2025-01-01T00:00:00Z", "annotationType": "OTHER", "annotator": "Tool: bench", "comment": "c" * 60}
    return {"annotations": [annotation] * 24_000}


def ran(*words, out=subprocess.DEVNULL):
    """The seconds and the peak in bytes of a whole process."""
    begun = time.perf_counter()
    process = subprocess.Popen(words, stdout=out, stderr=subprocess.DEVNULL)
    _, process.returncode, used = os.wait4(process.pid, 0)
    if process.returncode != 0:
        sys.exit(f"{words}: status {process.returncode}")
    return time.perf_counter() - begun, used.ru_maxrss << 10


def imported(program, room, path):
    desk = os.path.join(room, "desk.db")
    for end in ("", "-wal"):
        if os.path.exists(desk + end):
            os.remove(desk + end)
    return ran(program, "import", "--db", desk, path)[0]


def parsed(text):
    begun = time.perf_counter()
    json.loads(text)
    return time.perf_counter() - begun


def row(program, folder, name, members, needed=NEEDED):
    path, plain = (os.path.join(folder, name + end) for end in (".json", ".from-json.spdx"))
    text = json.dumps({**needed, **members}, indent=1)
    with open(path, "w", encoding="utf-8") as file:
        file.write(text)
    with open(plain, "wb") as file:
        ran(program, "convert", path, out=file)
    with tempfile.TemporaryDirectory(dir=MEMORY) as room:
        runs = [(*ran(program, "convert", path), parsed(text), imported(program, room, path), imported(program, room, plain)) for _ in range(RUNS)]
    convert, peak, python, whole, tag_value = map(min, zip(*runs))
    size = os.path.getsize(path)
    print(f"{name:14} {size:>10,} {convert * 1e3:8.1f} ms, peak {peak / size:5.1f}, json {python * 1e3:7.1f} ms, "
          f"import {whole * 1e3:7.1f} ms, of tag-value {tag_value * 1e3:7.1f} ms")


def main():
    program, folder = os.path.abspath(sys.argv[1]), sys.argv[2]
    os.makedirs(folder, exist_ok=True)
    for name, members in (("packages", packages()), ("relationships", relationships()), ("left-out", left_out())):
        row(program, folder, name, members)
    row(program, folder, "components", components(), BOM)


if __name__ == "__main__":
    main()
