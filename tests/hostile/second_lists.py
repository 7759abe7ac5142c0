"""Lists that a second desk answers with: minimal sets, adopted terms, and the findings of a document (docs/REQUESTS.md)."""

import re

import oracle
import second_codes
import second_judge

TERMS, SETS = 128, 64
NAMES = {1: "UnknownTag", 2: "Misplaced", 3: "BadExpression", 4: "BadDigest", 5: "BadCode", 6: "CodeDiffers", 7: "CodeUnwanted", 8: "Dangling",
         9: "MissingField", 10: "BadFlag", 11: "UndefinedRef"}
# The tags of SPDX 2.3, clauses 6 to 13, without the three that it calls deprecated (ArtifactOfProject..).
TAGS = set("""
SPDXVersion DataLicense SPDXID DocumentName DocumentNamespace ExternalDocumentRef LicenseListVersion Creator Created
CreatorComment DocumentComment PackageName PackageVersion PackageFileName PackageSupplier PackageOriginator
PackageDownloadLocation FilesAnalyzed PackageVerificationCode PackageChecksum PackageHomePage PackageSourceInfo
PackageLicenseConcluded PackageLicenseInfoFromFiles PackageLicenseDeclared PackageLicenseComments PackageCopyrightText
PackageSummary PackageDescription PackageComment ExternalRef ExternalRefComment PackageAttributionText PrimaryPackagePurpose
ReleaseDate BuiltDate ValidUntilDate FileName FileType FileChecksum LicenseConcluded LicenseInfoInFile LicenseComments
FileCopyrightText FileComment FileNotice FileContributor FileAttributionText FileDependency SnippetSPDXID SnippetFromFileSPDXID
SnippetByteRange SnippetLineRange SnippetLicenseConcluded LicenseInfoInSnippet SnippetLicenseComments SnippetCopyrightText
SnippetComment SnippetName SnippetAttributionText LicenseID ExtractedText LicenseName LicenseCrossReference LicenseComment
Relationship RelationshipComment Annotator AnnotationDate AnnotationType SPDXREF AnnotationComment Reviewer ReviewDate
ReviewComment
""".split())
BEGINNINGS = ("Package", "File", "Snippet", "License", "Annotat", "Review", "External", "Relationship", "Creator", "Document", "SPDXREF")
NAMED = ("document", "package", "file")
# The sections that have a tag. What describes the document counts in each, and a relationship belongs to each.
PLACES = {
    "SPDXID": NAMED, "ExtractedText": ("extracted",),
    **dict.fromkeys("PackageVersion PackageDownloadLocation FilesAnalyzed PackageVerificationCode PackageLicenseConcluded PackageLicenseDeclared "
                    "PackageCopyrightText".split(), ("package",)),
    **dict.fromkeys("FileChecksum LicenseConcluded LicenseInfoInFile FileCopyrightText".split(), ("file",)),
}
LICENCES = {"PackageLicenseConcluded": "package", "PackageLicenseDeclared": "package", "LicenseConcluded": "file", "LicenseInfoInFile": "file"}


def terms_of(tree):
    return {tree} if isinstance(tree, bytes) else set().union(*map(terms_of, tree[1:]))


def least(sets):
    """Those sets that hold no other one."""
    kept = []
    for some in sorted(set(sets), key=len):
        if not any(less <= some for less in kept):
            kept.append(some)
    return kept


def front(tree):
    """The minimal sets of a tree, or None if some part, or the first few of its parts, have too many."""
    if isinstance(tree, bytes):
        return [frozenset([tree])]
    joined = None
    for part in tree[1:]:
        sets = front(part)
        if sets is None:
            return None
        if joined is None:
            joined = sets
        else:
            joined = least(joined + sets) if tree[0] is any else least([one | other for one in joined for other in sets])
        if len(joined) > SETS:
            return None
    return joined


def minimal_sets(tree):
    """The sets in their order, each in the order of its terms."""
    sets = front(tree)
    return None if sets is None else sorted(map(sorted, sets), key=lambda some: (len(some), some))


def adopted(adoptions, term):
    """The term that a rule is for: a reference's licence with the reference's exception, or None."""
    if not term.startswith(second_judge.RESERVED):
        return term
    name, _, exception = term.partition(b" WITH ")
    licence = adoptions.get(name)
    return licence if licence is None or not exception else licence + b" WITH " + exception


# ---- findings


class Sections:
    """The fields of a document by section."""

    def __init__(self, data, profile):
        self.profile, self.rows = profile, []
        self.parts = [("document", 1, [])]
        for line, tag, value in oracle.fields(data.decode()):
            if tag in oracle.STARTS:
                self.parts.append((oracle.STARTS[tag], line, []))
            self.parts[-1][2].append((line, tag, value))
        self.fields = [(kind, *field) for kind, _, fields in self.parts for field in fields]
        self.ids = {value for kind, _, tag, value in self.fields if tag == "SnippetSPDXID" or tag == "SPDXID" and kind in NAMED}
        self.licences = {value for _, _, tag, value in self.fields if tag == "LicenseID"}
        self.files = second_codes.files_of(self.parts)

    def add(self, line, kind):
        self.rows.append([line, kind, NAMES[kind]])

    def licence(self, line, tag, value):
        text = value.encode()
        if len(text) <= second_judge.EXPRESSION_BYTES and text.strip(b" \t") in (b"NONE", b"NOASSERTION"):
            return
        tree = second_judge.tree_of(text, self.profile)
        if tree is None:
            self.add(line, 3)
        elif tag == "PackageLicenseConcluded":
            names = {term.partition(b" WITH ")[0].decode() for term in terms_of(tree)}
            if any(name.startswith("LicenseRef-") and name not in self.licences for name in names):
                self.add(line, 11)

    def relationship(self, line, value):
        left, _, right = [word for word in re.split("[ \t]+", value) if word]
        if any(end.startswith("SPDXRef-") and end not in self.ids for end in (left, right)):
            self.add(line, 8)

    def field(self, kind, line, tag, value):
        if tag not in TAGS and not tag.startswith(BEGINNINGS):
            self.add(line, 1)
        if kind not in PLACES.get(tag, (kind,)):
            self.add(line, 2)
        if LICENCES.get(tag) == kind:
            self.licence(line, tag, value)
        if tag == "Relationship":
            self.relationship(line, value)
        if tag == "FileChecksum" and kind == "file" and value.startswith("SHA1:") and not is_sha1(value):
            self.add(line, 4)
        if tag == "FilesAnalyzed" and kind == "package" and folded(value) not in ("true", "false"):
            self.add(line, 10)

    def missing(self, kind, line, fields):
        tags = {tag for _, tag, _ in fields}
        if kind == "package" and "PackageDownloadLocation" not in tags:
            self.add(line, 9)
        if kind == "file" and not any(tag == "FileChecksum" and is_sha1(value) for _, tag, value in fields):
            self.add(line, 9)
        if kind == "extracted" and "ExtractedText" not in tags:
            self.add(line, 9)
        if kind == "package":
            self.code({tag: (at, value) for at, tag, value in fields}, fields)

    def code(self, values, fields):
        """A package's verification code."""
        at, value = values.get("PackageVerificationCode", (0, None))
        if value is None:
            return
        if not second_codes.is_code(value):
            self.add(at, 5)
        if second_codes.differs(fields, self.files[values["SPDXID"][1]]):
            self.add(at, 6)
        if folded(values.get("FilesAnalyzed", (0, ""))[1]) == "false":
            self.add(at, 7)

    def found(self):
        """The findings by line and kind."""
        tags = {tag for _, _, tag, _ in self.fields}
        for _ in {"DataLicense", "Creator", "Created"} - tags:
            self.add(1, 9)
        for kind, line, fields in self.parts:
            self.missing(kind, line, fields)
        for field in self.fields:
            self.field(*field)
        return sorted(self.rows)


def folded(value):
    """A value with its ASCII capitals made small."""
    return "".join(letter.lower() if letter.isascii() else letter for letter in value)


def is_sha1(value):
    return re.fullmatch("SHA1: [0-9A-Fa-f]{40}", value) is not None


def findings(data, profile):
    return Sections(data, profile).found()
