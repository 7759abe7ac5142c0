"""A second reader of CycloneDX documents in JSON: what they are converted to, or why not, and what is left out.

It is written from the JSON schemas of CycloneDX 1.4 to 1.6 and the table in docs/DOCUMENTS.md. `json_read.Conversion` keeps the lines."""

import hashlib
import re

import json_read

PLAIN = re.compile(r"[A-Za-z0-9.]")
TERM = re.compile(r"[A-Za-z0-9.-]+\+?")
DEEPEST = 64
ELSEWHERE = {
    "bom": {"bomFormat", "specVersion", "serialNumber", "version", "metadata", "components", "dependencies"},
    "metadata": {"component"},
    "component": {"name", "group", "bom-ref", "scope", "licenses", "components"},
    "dependency": {"ref", "dependsOn"},
    "licence": {"id", "name", "acknowledgement", "text"},
    "expression": {"expression", "acknowledgement"},
}
EXTERNAL, ANNOTATIONS, FIELDS = json_read.EXTERNAL, json_read.ANNOTATIONS, json_read.FIELDS
MEMBERS = {
    "bom": [("externalReferences", EXTERNAL), ("annotations", ANNOTATIONS), ("services", FIELDS), ("vulnerabilities", FIELDS)],
    "component": [("purl", EXTERNAL), ("externalReferences", EXTERNAL)],
}


def escaped(text):
    return "".join(letter if PLAIN.fullmatch(letter) else "".join(f"-{byte:02x}" for byte in letter.encode()) for letter in text)


def has(value, key):
    return isinstance(value, dict) and key in value


def word(value, key):
    return json_read.text_in(value, key)


def identifier(at, value):
    return "SPDXRef-Component-" + escaped(word(value, "bom-ref")) if has(value, "bom-ref") else "SPDXRef-At-" + escaped(at)


def full_name(value):
    return f"{word(value, 'group')}/{word(value, 'name')}" if word(value, "group") else word(value, "name")


def content(licence):
    """The text that is written for a licence."""
    if has(licence, "id") or TERM.fullmatch(word(licence, "name")) or not has(licence, "text"):
        return None
    text = licence["text"]
    return text["content"] if has(text, "content") and "encoding" not in text and isinstance(text["content"], str) else None


def reference(licence):
    text = content(licence)
    return "LicenseRef-" + escaped(word(licence, "name")) + ("" if text is None else "--" + hashlib.sha1(text.encode()).hexdigest())


def licence_in(item):
    return item["license"] if has(item, "license") else item


def term(item):
    if has(item, "expression"):
        return word(item, "expression")
    licence = licence_in(item)
    if has(licence, "id"):
        return word(licence, "id")
    return word(licence, "name") if TERM.fullmatch(word(licence, "name")) else reference(licence)


def joined(items, concluded):
    text = ""
    for item in items:
        if (word(licence_in(item), "acknowledgement") == "concluded") == concluded:
            text = f"{text} AND {term(item)}" if text else term(item)
    return text


class Reader:
    def __init__(self, out):
        self.out = out

    # ---- faults

    def fault(self, kind, at):
        raise json_read.Fault(f"{kind} at {at}")

    def text(self, at, value, test=lambda text: True):
        if not isinstance(value, str):
            self.fault("BadType", at)
        if not test(value):
            self.fault("BadValue", at)

    def needed(self, at, value, key, test=lambda text: True):
        if not has(value, key):
            self.fault("Missing", f"{at}/{key}")
        self.text(f"{at}/{key}", value[key], test)

    def object(self, at, value, kind):
        if not isinstance(value, dict):
            self.fault("BadType", at)
        if kind == "component":
            if "version" in value:
                self.out.as_line(f"{at}/version", value["version"], "PackageVersion")
            if "copyright" in value:
                self.out.as_copyright(f"{at}/copyright", value["copyright"], "PackageCopyrightText")
        if kind == "metadata" and "timestamp" in value:
            self.out.as_line(f"{at}/timestamp", value["timestamp"], "Created")
        known = set(ELSEWHERE[kind]) | ({"version", "copyright"} if kind == "component" else {"timestamp"} if kind == "metadata" else set())
        for key, counted in MEMBERS.get(kind, ()):
            known.add(key)
            if key in value:
                self.out.as_count(None, value[key], counted)
        self.out.left[FIELDS] += len(set(value) - known)

    # ---- licences

    def licences(self, at, items):
        for concluded, tag in ((True, "PackageLicenseConcluded"), (False, "PackageLicenseDeclared")):
            terms = joined(items, concluded)
            if terms:
                self.out.put(at, tag, terms)
        for number, item in enumerate(items):
            self.licence(f"{at}/{number}", item, len(items) == 1)

    def licence(self, at, item, alone):
        if has(item, "expression"):
            self.object(at, item, "expression")
            self.text(f"{at}/expression", item["expression"], lambda text: alone and text != "")
            return
        if not has(item, "license"):
            self.fault("Missing", f"{at}/license")
        licence = item["license"]
        self.object(f"{at}/license", licence, "licence")
        if "id" in licence:
            self.text(f"{at}/license/id", licence["id"], lambda text: TERM.fullmatch(text))
        else:
            self.needed(f"{at}/license", licence, "name")
        if "text" in licence and content(licence) is None:
            self.out.left[FIELDS] += 1

    # ---- components

    def placed(self, at, owner, value, depth=DEEPEST):
        yield at, owner, value, depth
        if depth:
            for number, inner in enumerate(json_read.listed(json_read.member(value, "components"))):
                yield from self.placed(f"{at}/components/{number}", identifier(at, value), inner, depth - 1)

    def nested(self, at, value, depth):
        if has(value, "components"):
            if not isinstance(value["components"], list):
                self.fault("BadType", f"{at}/components")
            if depth == 0:
                self.fault("BadValue", f"{at}/components")

    def component(self, at, owner, value, depth):
        self.needed(at, value, "name")
        for key in ("group", "bom-ref", "scope"):
            if has(value, key):
                self.text(f"{at}/{key}", value[key])
        self.out.blank()
        self.out.put(f"{at}/name", "PackageName", full_name(value))
        self.out.put(at, "SPDXID", identifier(at, value))
        self.out.put(at, "PackageDownloadLocation", "NOASSERTION")
        self.out.put(at, "FilesAnalyzed", "false")
        if has(value, "licenses"):
            if not isinstance(value["licenses"], list):
                self.fault("BadType", f"{at}/licenses")
            self.licences(f"{at}/licenses", value["licenses"])
        self.object(at, value, "component")
        self.nested(at, value, depth)
        if word(value, "scope") != "excluded":
            kind = "DESCRIBES" if owner == json_read.DOCUMENT else "CONTAINS"
            self.out.put(at, "Relationship", f"{owner} {kind} {identifier(at, value)}")

    def lines(self, owner, value):
        """What is read of a component, whether it has faults or not."""
        items = json_read.listed(json_read.member(value, "licenses"))
        texts = [found for found in (json_read.member(value, "version"), json_read.member(value, "copyright")) if isinstance(found, str)]
        return [full_name(value), joined(items, True), joined(items, False), *texts, has(value, "version"), owner if word(value, "scope") != "excluded" else None]

    def extracted(self, at, licence):
        self.out.blank()
        self.out.put(at, "LicenseID", reference(licence))
        self.out.put(f"{at}/text", "ExtractedText", content(licence), is_text=True)

    def elements(self, at, owner, value, depth):
        self.out.once(at, identifier(at, value), self.lines(owner, value), lambda: self.component(at, owner, value, depth))
        for number, item in enumerate(json_read.listed(json_read.member(value, "licenses"))):
            licence, place = licence_in(item), f"{at}/licenses/{number}/license"
            if not has(item, "expression") and content(licence) is not None:
                self.out.once(place, reference(licence), content(licence), lambda: self.extracted(place, licence))

    # ---- the whole

    def number(self, value):
        """The version of the document, from its text in JSON."""
        if not has(value, "version"):
            return "1"
        found = value["version"]
        if not isinstance(found, json_read.Number) or not re.fullmatch(r"\d+", found.text) or int(found.text) >= 1 << 64:
            self.fault("BadType", "/version")
        return found.text

    def read(self, value):
        self.object("", value, "bom")
        self.needed("", value, "specVersion", lambda text: text in ("1.4", "1.5", "1.6"))
        self.needed("", value, "serialNumber", lambda text: text.startswith("urn:uuid:"))
        version, metadata = self.number(value), json_read.member(value, "metadata")
        root = json_read.member(metadata, "component") if has(metadata, "component") else None
        self.out.put("", "SPDXVersion", "SPDX-2.3")
        self.out.put("", "DataLicense", "CC0-1.0")
        self.out.put("", "SPDXID", json_read.DOCUMENT)
        has_root = has(metadata, "component")
        self.out.put("/metadata/component/name", "DocumentName", full_name(root) if has_root else word(value, "serialNumber"))
        self.out.put("/serialNumber", "DocumentNamespace", f"{value['serialNumber']}/{version}")
        self.out.put("", "Creator", "Tool: licence-desk-1")
        if has(value, "metadata"):
            self.object("/metadata", metadata, "metadata")
        self.nested("", value, DEEPEST)
        placed, owner = [], json_read.DOCUMENT
        if has_root:
            placed, owner = list(self.placed("/metadata/component", owner, root)), identifier("/metadata/component", root)
        for number, inner in enumerate(json_read.listed(json_read.member(value, "components"))):
            placed += self.placed(f"/components/{number}", owner, inner)
        for at, holder, inner, depth in placed:
            self.elements(at, holder, inner, depth)
        excluded = {identifier(at, inner) for at, _, inner, _ in placed if word(inner, "scope") == "excluded"}
        if has(value, "dependencies"):
            for place, item in self.out.each("/dependencies", value["dependencies"]):
                self.dependency(place, item, excluded)

    def dependency(self, at, value, excluded):
        self.object(at, value, "dependency")
        self.needed(at, value, "ref")
        left = "SPDXRef-Component-" + escaped(value["ref"])
        for place, item in self.out.each(f"{at}/dependsOn", value["dependsOn"]) if "dependsOn" in value else []:
            self.text(place, item)
            right = "SPDXRef-Component-" + escaped(item)
            words = (right, "DEV_DEPENDENCY_OF", left) if right in excluded else (left, "DEPENDS_ON", right)
            self.out.put(place, "Relationship", " ".join(words))


def read(out, value):
    Reader(out).read(value)
