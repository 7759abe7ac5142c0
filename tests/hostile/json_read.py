"""A second reader of documents in JSON: what they are converted to, or why not, and what is left out.

It is written from the JSON schema of SPDX 2.3, clauses 6 to 11, for the fields that mean the same in a tag-value document, and from
docs/DOCUMENTS.md and docs/REFUSALS.md. `bom_read.py` reads CycloneDX. The reader of tests/documents decides whether a value can be in its field."""

import json
import math
import re

import looks_read
import oracle

JSON_BYTES = 64 << 20
DEEPEST = 127
MARK = b"\xef\xbb\xbf"
DOCUMENT = "SPDXRef-DOCUMENT"
ANNOTATIONS, EXTERNAL, DOCUMENTS, FIELDS, FILES = range(5)
# The members of an object in the order of their fields: how the value is written, and the tag, or what of it is counted. A member with an
# exclamation mark is required; what is written in another place, or left out beside it, is in no row here.
MEMBERS = {
    "document": [
        ("spdxVersion!", "line", "SPDXVersion"), ("dataLicense", "line", "DataLicense"), ("SPDXID!", "line", "SPDXID"),
        ("name!", "line", "DocumentName"), ("documentNamespace!", "line", "DocumentNamespace"),
        ("externalDocumentRefs", "count", DOCUMENTS), ("annotations", "count", ANNOTATIONS),
    ],
    "creation": [("creators", "lines", "Creator"), ("created", "line", "Created")],
    "package": [
        ("name!", "line", "PackageName"), ("SPDXID!", "line", "SPDXID"), ("versionInfo", "line", "PackageVersion"),
        ("downloadLocation", "line", "PackageDownloadLocation"), ("filesAnalyzed", "flag", "FilesAnalyzed"),
        ("packageVerificationCode", "code", "PackageVerificationCode"), ("licenseConcluded", "line", "PackageLicenseConcluded"),
        ("licenseDeclared", "line", "PackageLicenseDeclared"), ("copyrightText", "copyright", "PackageCopyrightText"),
        ("externalRefs", "count", EXTERNAL), ("annotations", "count", ANNOTATIONS),
    ],
    "file": [
        ("fileName!", "line", "FileName"), ("SPDXID!", "line", "SPDXID"), ("checksums", "checksums", "FileChecksum"),
        ("licenseConcluded", "line", "LicenseConcluded"), ("licenseInfoInFiles", "lines", "LicenseInfoInFile"),
        ("copyrightText", "copyright", "FileCopyrightText"), ("annotations", "count", ANNOTATIONS),
    ],
    "snippet": [("SPDXID!", "line", "SnippetSPDXID"), ("annotations", "count", ANNOTATIONS)],
    "extracted": [("licenseId!", "line", "LicenseID"), ("extractedText", "text", "ExtractedText")],
    "relationship": [],
}
ENDS = ("spdxElementId", "relationshipType", "relatedSpdxElement")
ELSEWHERE = {
    "document": {"creationInfo", "files", "snippets", "packages", "hasExtractedLicensingInfos", "documentDescribes", "relationships"},
    "package": {"hasFiles"},
    "relationship": set(ENDS),
}
# The end of a relationship from which what ships leads on, and the one that is contained.
LEADING = {"CONTAINS": 0, "DEPENDS_ON": 0, "STATIC_LINK": 0, "DYNAMIC_LINK": 0, "CONTAINED_BY": 2, "DEPENDENCY_OF": 2, "RUNTIME_DEPENDENCY_OF": 2}
CONTAINED = {"CONTAINS": 2, "CONTAINED_BY": 0}
NO_CODE = "packageVerificationCodeValue"
EXCLUDED = "packageVerificationCodeExcludedFiles"


class Fault(Exception):
    """What `desk convert` prints after `fault: `."""


# ---- JSON


class Number:
    """A number that a 64-bit float can be near."""

    def __init__(self, text):
        if not math.isfinite(float(text)):
            raise ValueError(text)
        self.text = text


def no_word(text):
    raise ValueError(text)


def has_half(value):
    """Whether half a pair of surrogates is in a text."""
    if isinstance(value, list):
        return any(map(has_half, value))
    if isinstance(value, dict):
        return any(has_half(key) or has_half(one) for key, one in value.items())
    return isinstance(value, str) and any("\ud800" <= letter <= "\udfff" for letter in value)


def object_with(pairs):
    """An object: of two values of one key the later one counts. The earlier one must be readable too."""
    if any(has_half(key) or has_half(value) for key, value in pairs):
        raise ValueError
    return dict(pairs)


def depth_of(text):
    """How deep lists and objects are in one another."""
    depth = deepest = 0
    for bracket in re.findall(r"[\[\]{}]", re.sub(r'"(?:[^"\\]|\\.)*"', "", text, flags=re.S)):
        depth += 1 if bracket in "[{" else -1
        deepest = max(deepest, depth)
    return deepest


def json_of(data):
    if len(data) > JSON_BYTES:
        raise Fault("TooLarge")
    try:
        text = data.removeprefix(MARK).decode()
        if depth_of(text) > DEEPEST:
            raise ValueError
        value = json.loads(text, parse_int=Number, parse_float=Number, parse_constant=no_word, object_pairs_hook=object_with)
    except (ValueError, RecursionError):
        raise Fault("NotJson") from None
    if has_half(value):
        raise Fault("NotJson")
    return value


# ---- lines


def field(tag, value, is_text=False):
    """The line of a field."""
    return f"{tag}: <text>{value}</text>\n" if is_text else f"{tag}: {value}\n"


def is_read(line, tag, value):
    """Whether a line is read as this field and no other."""
    try:
        return oracle.fields(line) == [(1, tag, value)]
    except oracle.Fault:
        return False


def is_word(text):
    """A text that can be one of those between blanks."""
    return text != "" and not set(text) & set(" \t")


def is_name(text):
    """A text that can be one of those between commas."""
    return "," not in text and text == text.strip(" \t")


def member(value, key):
    return value.get(key) if isinstance(value, dict) else None


def text_in(value, key):
    found = member(value, key)
    return found if isinstance(found, str) else ""


def is_in(value, key):
    return isinstance(value, dict) and key in value


def lines_of(kind, value, idle=frozenset()):
    """What is read of an element without idle files, whether it has faults or not."""
    lines = []
    for name, way, tag in MEMBERS[kind]:
        found = member(value, name.rstrip("!"))
        items = found if isinstance(found, list) else []
        if way in ("line", "text", "copyright") and isinstance(found, str):
            lines.append((tag, found))
        elif way == "flag" and isinstance(found, bool):
            lines.append((tag, found))
        elif way == "lines":
            lines += [(tag, item) for item in items if isinstance(item, str)]
        elif way == "checksums":
            lines += [(tag, f"{text_in(item, 'algorithm')}: {text_in(item, 'checksumValue')}") for item in items]
        elif way == "code" and is_in(value, name):
            names = [name if isinstance(name, str) else "" for name in listed(member(found, EXCLUDED))]
            lines.append((tag, text_in(found, NO_CODE) + (f" (excludes: {', '.join(names)})" if names else "")))
    if kind == "package":
        lines += [("CONTAINS", item) for item in texts_in(value, "hasFiles") if is_word(item) and item not in idle]
    return lines


def listed(value):
    return value if isinstance(value, list) else []


def texts_in(value, key):
    return [item for item in listed(member(value, key)) if isinstance(item, str)]


def ids_in(value, key, name="SPDXID"):
    return {text_in(item, name) for item in listed(member(value, key))}


def ends_of(value):
    """The words of each relationship."""
    return [[text_in(item, key) for key in ENDS] for item in listed(member(value, "relationships"))]


def contained_in(value):
    """What packages, or other elements, contain."""
    named = {item for package in listed(member(value, "packages")) for item in texts_in(package, "hasFiles")}
    return named | {ends[CONTAINED[ends[1]]] for ends in ends_of(value) if ends[1] in CONTAINED}


def idle_in(value):
    """The identifiers of the files without which nothing that ships changes (docs/DOCUMENTS.md, Files)."""
    others = {"", DOCUMENT} | ids_in(value, "packages") | ids_in(value, "snippets") | ids_in(value, "hasExtractedLicensingInfos", "licenseId")
    described = {end for left, kind, right in ends_of(value) if kind in ("DESCRIBES", "DESCRIBED_BY") for end in (left, right)}
    leading = {ends[LEADING[ends[1]]] for ends in ends_of(value) if ends[1] in LEADING}
    coded = any(is_in(package, "packageVerificationCode") for package in listed(member(value, "packages")))
    needed = others | described | leading | set(texts_in(value, "documentDescribes")) | (contained_in(value) if coded else set())
    return ids_in(value, "files") - needed


class Conversion:
    """The lines that a document in JSON is converted to, each with its place, as far as it was read, and how much was left out. Without idle
    files if it is `brief`."""

    def __init__(self, data, brief=False):
        self.parts, self.left, self.seen, self.brief, self.idle = [], [0, 0, 0, 0, 0], {}, brief, frozenset()
        value, at = json_of(data), ""
        if text_in(value, "bomFormat") == "CycloneDX":
            # That reader takes its words from this one.
            import bom_read

            bom_read.read(self, value)
            return
        if not is_in(value, "spdxVersion") and is_in(value, "sbom"):
            value, at = value["sbom"], "/sbom"
        self.document(at, value)

    @property
    def text(self):
        return "".join(text for _, text in self.parts).encode()

    def places(self):
        """The place of each line of the text."""
        return [at for at, text in self.parts for _ in range(text.count("\n"))]

    def left_out(self):
        """What standard error says about what was left out."""
        names = ("annotations", "external references", "references to documents", "other fields", *(["files"] if self.brief else []))
        return "left out: {}\n".format(", ".join(f"{count} {name}" for count, name in zip(self.left, names))).encode()

    # ---- values

    def put(self, at, tag, value, is_text=False):
        line = field(tag, value, is_text)
        if not is_read(line, tag, value):
            raise Fault(f"BadValue at {at}")
        self.parts.append((at, line))

    def blank(self):
        self.parts.append(("", "\n"))

    def text_at(self, at, value):
        if not isinstance(value, str):
            raise Fault(f"BadType at {at}")
        return value

    def word_at(self, at, value, key):
        """A required member that is one word."""
        if not is_in(value, key):
            raise Fault(f"Missing at {at}/{key}")
        if not is_word(self.text_at(f"{at}/{key}", value[key])):
            raise Fault(f"BadValue at {at}/{key}")
        return value[key]

    def each(self, at, value):
        """The items of a list, each with its place."""
        if not isinstance(value, list):
            raise Fault(f"BadType at {at}")
        return [(f"{at}/{number}", item) for number, item in enumerate(value)]

    def as_line(self, at, value, tag):
        self.put(at, tag, self.text_at(at, value))

    def as_text(self, at, value, tag):
        self.put(at, tag, self.text_at(at, value), is_text=True)

    def as_copyright(self, at, value, tag):
        self.put(at, tag, self.text_at(at, value), is_text=value not in ("NONE", "NOASSERTION"))

    def as_flag(self, at, value, tag):
        if not isinstance(value, bool):
            raise Fault(f"BadType at {at}")
        self.put(at, tag, "true" if value else "false")

    def as_lines(self, at, value, tag):
        for place, item in self.each(at, value):
            self.as_line(place, item, tag)

    def as_checksums(self, at, value, tag):
        for place, item in self.each(at, value):
            self.put(place, tag, f"{self.word_at(place, item, 'algorithm')}: {self.word_at(place, item, 'checksumValue')}")

    def as_code(self, at, value, tag):
        code, names = self.word_at(at, value, NO_CODE), []
        for place, item in self.each(f"{at}/{EXCLUDED}", value[EXCLUDED]) if EXCLUDED in value else []:
            if not is_name(self.text_at(place, item)):
                raise Fault(f"BadValue at {place}")
            names.append(item)
        self.put(at, tag, f"{code} (excludes: {', '.join(names)})" if names else code)

    def as_count(self, _, value, kind):
        self.left[kind] += len(value) if isinstance(value, list) else 1

    # ---- objects

    def object(self, at, value, kind):
        if not isinstance(value, dict):
            raise Fault(f"BadType at {at}")
        known = set(ELSEWHERE.get(kind, ()))
        for name, way, of in MEMBERS[kind]:
            key = name.rstrip("!")
            known.add(key)
            if key in value:
                getattr(self, f"as_{way}")(f"{at}/{key}", value[key], of)
            elif name.endswith("!"):
                raise Fault(f"Missing at {at}/{key}")
        self.left[FIELDS] += len(set(value) - known)

    def parts_of(self, at, value, key, part):
        """Each item of a member that is a list of objects."""
        for place, item in self.each(f"{at}/{key}", value[key]) if is_in(value, key) else []:
            part(place, item)

    def section(self, kind):
        """Adds an element, unless an earlier one has its identifier: that one must have the same lines."""
        def part(at, value):
            identifier, lines = text_in(value, "licenseId" if kind == "extracted" else "SPDXID"), lines_of(kind, value, self.idle)
            if identifier in self.idle:
                self.left[FILES] += 1
                return
            self.once(at, identifier, lines, lambda: self.element(at, value, kind))

        return part

    def once(self, at, identifier, lines, write):
        first_at, first_lines = self.seen.setdefault(identifier, (at, lines))
        if first_at != at and first_lines != lines:
            raise Fault(f"Differs at {at} from {first_at}")
        written = list(self.parts)
        write()
        if first_at != at:
            self.parts = written

    def element(self, at, value, kind):
        self.blank()
        self.object(at, value, kind)
        if kind == "package":
            self.parts_of(at, value, "hasFiles", lambda place, item: self.contained(place, text_in(value, "SPDXID"), item))

    def contained(self, at, package, item):
        if not isinstance(item, str) or item not in self.idle:
            self.tie(at, package, "CONTAINS", item)

    def tie(self, at, left, kind, right):
        """A relationship that isn't an item of `relationships`."""
        if not is_word(self.text_at(at, right)):
            raise Fault(f"BadValue at {at}")
        self.put(at, "Relationship", f"{left} {kind} {right}")

    def relationship(self, at, value):
        if {text_in(value, ENDS[0]), text_in(value, ENDS[2])} & self.idle:
            return
        self.object(at, value, "relationship")
        self.put(at, "Relationship", " ".join([self.word_at(at, value, key) for key in ENDS]))

    def described(self, value):
        """What the relationships say that the document describes."""
        return {right for left, kind, right in ends_of(value) if (left, kind) == (DOCUMENT, "DESCRIBES")}

    def document(self, at, value):
        if self.brief:
            self.idle = frozenset(idle_in(value))
        self.object(at, value, "document")
        if is_in(value, "creationInfo"):
            self.object(f"{at}/creationInfo", value["creationInfo"], "creation")
        self.parts_of(at, value, "files", self.section("file"))
        self.parts_of(at, value, "snippets", self.section("snippet"))
        self.parts_of(at, value, "packages", self.section("package"))
        self.parts_of(at, value, "hasExtractedLicensingInfos", self.section("extracted"))
        listed = self.described(value)
        for place, item in self.each(f"{at}/documentDescribes", value["documentDescribes"]) if "documentDescribes" in value else []:
            if not isinstance(item, str) or item not in listed:
                self.tie(place, DOCUMENT, "DESCRIBES", item)
        self.parts_of(at, value, "relationships", self.relationship)


def converted(data, brief=False):
    """What `desk convert` writes, its status, and its standard error: without idle files if it is to be `brief`."""
    try:
        conversion = Conversion(data, brief)
    except Fault as fault:
        return f"fault: {fault}\n".encode(), 1, looks_read.line(data)
    return conversion.text, 0, conversion.left_out()


def taken(data, brief=False):
    """The bytes that `desk import` imports of a file, what it first writes about them to standard error, and the place of each line of a document
    in JSON."""
    if oracle.answer(data) == "document":
        return data, b"", []
    try:
        conversion = Conversion(data, brief)
    except Fault as fault:
        return data, f"nor is it a document in JSON: {fault}\n".encode() + looks_read.line(data), []
    return conversion.text, conversion.left_out(), conversion.places()
