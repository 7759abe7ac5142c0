"""A second reader of what files look like: the line on standard error for one that isn't a document, from the table in docs/DOCUMENTS.md."""

SEEN = 4_096
JAVA = "Convert of SPDX's tools-java"
TOOLS = f"convert it to JSON first, as with pyspdxtools or {JAVA}"


def has(data, *words):
    return any(word in data for word in words)


def look(data):
    """What a file looks like, or None."""
    if data.startswith(b"\xef\xbb\xbf"):
        data = data[3:]
    data = data.lstrip(b" \t\r\n")[:SEEN]
    if data[:2] == bytes([31, 139]):
        return "a gzip file: unpack it first, as with gunzip"
    if data[:4] == b"PK\x03\x04":
        if has(data, b"xl/", b"vnd.oasis.opendocument.spreadsheet"):
            return f"a spreadsheet: if it is one of SPDX, save it as .xlsx and convert it to JSON first, as with {JAVA}"
        return "a ZIP archive: unpack it first, as with unzip"
    if data[:1] == b"<":
        if has(data, b"http://cyclonedx.org/schema/bom/"):
            return "CycloneDX in XML: convert it to JSON first, as with cyclonedx-cli convert"
        if has(data, b"http://spdx.org/rdf/terms"):
            return f"SPDX in RDF/XML: {TOOLS}"
        return f"SPDX in XML: {TOOLS}" if has(data, b"<SPDXID>", b"<spdxVersion>") else None
    if data[:1] == b"{" and has(data, b"spdx.org/rdf/3"):
        return "SPDX 3 in JSON-LD, and SPDX 2.2 and 2.3 are read: have the tool that wrote it write SPDX 2.3"
    if data[:1] in (b"{", b"[") or has(data, b"SPDXVersion:"):
        return None
    if has(data, b"spdxVersion: ", b"creationInfo:"):
        return f"SPDX in YAML: {TOOLS}"
    titles = (b"MIT License", b"Apache License", b"GENERAL PUBLIC LICENSE")
    permissions = (b"Permission is hereby granted", b"Redistribution and use in source")
    if has(data, *titles, *permissions):
        return "the text of a licence, and no document: a text for the catalogue, or for desk texts"
    return None


def line(data):
    """The line that says so, if there is one."""
    found = look(data)
    return b"" if found is None else f"it looks like {found}\n".encode()
