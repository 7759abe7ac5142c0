"""A second desk in Python, for the replies that a script should get: written from docs/REQUESTS.md and docs/REFUSALS.md.

It answers each request by the sections of those pages, in their order, over the readers of `tests/second_judge.py`. Texts are bytes."""

import json
import re

import catalogue_faults
import expression_faults
import oracle
import requests_read
import second_judge
import second_lists

NAMES = {
    1: "BadCatalogue", 2: "BadDocument", 3: "NamespaceTaken", 4: "UnknownDocument", 5: "UnknownPackage", 6: "BadExpression", 7: "Chosen",
    8: "BadTerm", 9: "BadName", 10: "NameTaken", 11: "UnknownForm", 12: "UnknownRelease", 13: "ReleaseState", 14: "AlreadyAttached",
    15: "NotShipped", 16: "NoConclusion", 17: "NotEnough", 18: "NotMinimal", 19: "NoChoice", 20: "EmptyRelease", 21: "NotAdopted",
    22: "NoRule", 23: "UnknownDuty", 24: "DutyState", 25: "BadText", 26: "BadDay", 27: "Full", 28: "TooMany", 29: "TooManyTerms",
    30: "BadEnd",
}
MOST, ATTACHED, ADOPTIONS, CHANGES = 4_096, 64, 10_000, 999
# What a copyright or a text says if it says nothing.
NOTHING = (None, b"NONE", b"NOASSERTION")
MOVES = {"meet": ("open", "met", "met"), "waive": ("open", "waived", "waived"), "reopen": ("met waived", "open", "reopened")}


class Refused(Exception):
    def __init__(self, number, *at):
        super().__init__(number)
        self.told = {"at": list(at), "name": NAMES[number], "refused": number}


def shown(value):
    """A reply as it is written."""
    return json.dumps(value, ensure_ascii=False, separators=(",", ":"), sort_keys=True).encode("utf-8", "surrogatepass")


def refuse_if(condition, number, *at):
    if condition:
        raise Refused(number, *at)


class Release:
    def __init__(self, name, form):
        self.name, self.form, self.state, self.revision = name, form, "open", 0
        self.documents, self.choices, self.duties, self.frozen = [], {}, [], []


class Document:
    def __init__(self, data, profile):
        self.data, self.profile, self.read = data, profile, second_judge.document_of(data)
        self.packages = {row[0].decode(): row for row in self.read.packages}
        self.office, self.adopted = {}, {}

    def shipped(self):
        return [row[0].decode() for row in self.read.packages if row[5]]

    def concluded(self, package):
        """The conclusion in force as it is written, and its tree."""
        if package in self.office:
            return self.office[package], second_judge.tree_of(self.office[package].encode(), second_judge.CAPITALS)
        text = self.packages[package][3]
        tree = None if text is None else second_judge.tree_of(text, self.profile)
        return ("" if tree is None else text.decode()), tree


class Duty:
    def __init__(self, number, release, row, day):
        self.number, self.release, self.row = number, release, row
        self.state, self.changes = "open", [[1, day, "raised", ""]]

    def is_over(self, day):
        """Whether it is waived up to an earlier day than this one."""
        return self.state == "waived" and len(self.changes[-1]) == 5 and self.changes[-1][4] < day

    def told(self):
        return [self.number, *self.row, self.state, self.changes[-1][1]]

    def move(self, day, word, text, state, *until):
        self.changes.append([len(self.changes) + 1, day, word, text, *until])
        self.state = state


class SecondDesk:
    def __init__(self):
        self.catalogues, self.documents, self.releases, self.duties = [], [], {}, []
        self.namespaces = {}

    def reply(self, line):
        """The reply to a line, None if it has none."""
        if requests_read.is_blank(line):
            return None
        request = requests_read.request_of(line)
        return shown({"fault": "command"}) if request is None else self.answer(request)

    def answer(self, request):
        """The reply to a request that was read."""
        kind = request.get("do") or request.get("ask")
        try:
            return shown(getattr(self, f"{'do' if 'do' in request else 'ask'}_{kind}")(request))
        except Refused as refused:
            return shown(refused.told)

    # ---- what is looked up

    def document(self, request):
        refuse_if(not 1 <= request["document"] <= len(self.documents), 4)
        return self.documents[request["document"] - 1]

    def package(self, request):
        document = self.document(request)
        refuse_if(request["package"] not in document.packages, 5)
        return document

    def release(self, request):
        refuse_if(request["release"] not in self.releases, 12)
        return self.releases[request["release"]]

    def forms(self):
        return catalogue_faults.toml_of(self.catalogues[-1].decode())["forms"] if self.catalogues else []

    def rules(self):
        """The rules of the catalogue in force by term and form."""
        found = second_judge.rules_of(self.catalogues[-1]) if self.catalogues else []
        return {(rule.term, rule.form.decode()): rule for rule in found}

    # ---- commands

    def do_catalogue(self, request):
        fault = catalogue_faults.fault_of(request["text"])
        refuse_if(fault is not None, 1, *(fault or ()))
        refuse_if(len(self.catalogues) >= MOST, 27, "revisions")
        self.catalogues.append(request["text"].encode())
        return {"revision": len(self.catalogues)}

    def do_import(self, request):
        data = request["text"] if isinstance(request["text"], bytes) else request["text"].encode()
        told = oracle.answer(data)
        if told != "document":
            number, line, tag = told.split(" ", 2)
            raise Refused(2, int(number), int(line), *([] if tag == "-" else [tag]))
        document = Document(data, request.get("profile", 1))
        known = self.namespaces.get(document.read.namespace)
        if known and self.documents[known - 1].data == data:
            return {"document": known, "new": False}
        refuse_if(known, 3, known)
        refuse_if(len(self.documents) >= MOST, 27, "documents")
        self.documents.append(document)
        self.namespaces[document.read.namespace] = len(self.documents)
        return {"document": len(self.documents), "new": True}

    def do_open(self, request):
        name = request["release"]
        refuse_if(not re.fullmatch(r"[A-Za-z0-9.\-]{1,64}", name), 9)
        refuse_if(request["form"] not in self.forms(), 11)
        refuse_if(name in self.releases, 10)
        refuse_if(len(self.releases) >= MOST, 27, "releases")
        self.releases[name] = Release(name, request["form"])
        return {"done": True}

    def do_attach(self, request):
        release = self.release(request)
        self.document(request)
        refuse_if(release.state != "open", 13, release.state)
        refuse_if(request["document"] in release.documents, 14)
        refuse_if(len(release.documents) >= ATTACHED, 27, "attached")
        release.documents.append(request["document"])
        return {"done": True}

    def do_conclude(self, request):
        fault = expression_faults.fault_of_conclusion(request["expression"].encode())
        refuse_if(fault, 6, *(fault or ()))
        document = self.package(request)
        key = (request["document"], request["package"])
        holder = next((release.name for release in self.releases.values() if key in release.choices), None)
        refuse_if(holder is not None, 7, holder)
        document.office[request["package"]] = request["expression"]
        return {"done": True}

    def do_adopt(self, request):
        reference, licence = (second_judge.term_of(request[key].encode()) for key in ("reference", "licence"))
        is_reference = reference and reference.startswith(second_judge.RESERVED) and b" " not in reference
        refuse_if(not is_reference, 8, 0)
        refuse_if(not licence or licence.startswith(second_judge.RESERVED) or b" " in licence or b"+" in licence, 8, 1)
        document = self.document(request)
        refuse_if(reference not in document.adopted and len(document.adopted) >= ADOPTIONS, 27, "adoptions")
        document.adopted[reference] = licence
        return {"done": True}

    def do_choose(self, request):
        terms = [second_judge.term_of(term.encode()) for term in request["terms"]]
        refuse_if(None in terms, 8, terms.index(None) if None in terms else 0)
        release, document = self.release(request), self.package(request)
        refuse_if(release.state != "open", 13, release.state)
        is_shipped = request["document"] in release.documents and request["package"] in document.shipped()
        refuse_if(not is_shipped, 15)
        tree = document.concluded(request["package"])[1]
        refuse_if(tree is None, 16, request["document"], request["package"])
        refuse_if(not second_judge.is_true(tree, set(terms)), 17)
        for term in terms:
            refuse_if(second_judge.is_true(tree, set(terms) - {term}), 18, term.decode())
        release.choices[request["document"], request["package"]] = sorted(set(terms))
        return {"done": True}

    def do_unchoose(self, request):
        release, key = self.release(request), (request["document"], request["package"])
        self.package(request)
        refuse_if(release.state != "open", 13, release.state)
        refuse_if(key not in release.choices, 19, *key)
        del release.choices[key]
        return {"done": True}

    def shipped(self, release):
        """The packages that a release ships, by document and id."""
        return [(number, name) for number in sorted(release.documents) for name in sorted(self.documents[number - 1].shipped(), key=str.encode)]

    def owed(self, release, number, package):
        """The rules of the chosen terms of a package."""
        document, rules = self.documents[number - 1], self.rules()
        refuse_if(document.concluded(package)[1] is None, 16, number, package)
        terms = release.choices.get((number, package))
        refuse_if(terms is None, 19, number, package)
        adopted = [second_lists.adopted(document.adopted, term) for term in terms]
        for term, licence in zip(terms, adopted):
            refuse_if(licence is None, 21, number, term.partition(b" WITH ")[0].decode())
        for term, licence in zip(terms, adopted):
            refuse_if((licence, release.form) not in rules, 22, number, package, term.decode())
        return [(term, rules[licence, release.form]) for term, licence in zip(terms, adopted)]

    def do_freeze(self, request):
        refuse_if(not second_judge.is_day(request["day"].encode()), 26)
        release = self.release(request)
        refuse_if(release.state != "open", 13, release.state)
        refuse_if(not release.documents, 20)
        frozen = [(number, name, self.owed(release, number, name)) for number, name in self.shipped(release)]
        rows = [
            [number, name, term.decode(), rule.spelled.decode(), code.decode()]
            for number, name, terms in frozen
            for term, rule in terms
            for code in rule.codes.split(b" ") if code
        ]
        refuse_if(len(self.duties) + len(rows) > second_judge.DUTIES, 27, "duties")
        first = len(self.duties) + 1
        for number, row in enumerate(rows, first):
            self.duties.append(Duty(number, release, row, request["day"]))
            release.duties.append(self.duties[-1])
        release.state, release.revision, release.frozen = "frozen", len(self.catalogues), frozen
        return {"count": len(rows), "first": first}

    def moved(self, request):
        refuse_if(any(not second_judge.is_day(request[key].encode()) for key in ("day", "until") if key in request), 26)
        refuse_if(not second_judge.is_note(request["text"].encode()), 25)
        refuse_if(request.get("until", request["day"]) < request["day"], 30)
        refuse_if(not 1 <= request["duty"] <= len(self.duties), 23)
        duty = self.duties[request["duty"] - 1]
        refuse_if(duty.release.state != "frozen", 13, duty.release.state)
        before, state, word = MOVES[request["do"]]
        refuse_if(duty.state not in before.split(" "), 24, duty.state)
        refuse_if(len(duty.changes) >= CHANGES, 27, "changes")
        duty.move(request["day"], word, request["text"], state, *([request["until"]] if "until" in request else []))
        return {"done": True}

    do_meet = do_waive = do_reopen = moved

    def do_close(self, request):
        refuse_if(not second_judge.is_day(request["day"].encode()), 26)
        ended = [duty for duty in self.duties if duty.is_over(request["day"])]
        for duty in ended:
            duty.move(request["day"], "ended", "", "open")
        return {"closed": len(ended)}

    def do_withdraw(self, request):
        refuse_if(not second_judge.is_day(request["day"].encode()), 26)
        refuse_if(not second_judge.is_note(request["text"].encode()), 25)
        release = self.release(request)
        refuse_if(release.state == "withdrawn", 13, release.state)
        for duty in release.duties:
            if duty.state in ("open", "waived"):
                duty.move(request["day"], "withdrawn", request["text"], "withdrawn")
        release.state, release.choices = "withdrawn", {}
        return {"done": True}

    # ---- questions

    def ask_duties(self, request):
        return {"rows": [duty.told() for duty in self.release(request).duties]}

    def ask_totals(self, request):
        states = [duty.state for duty in self.release(request).duties]
        return {"rows": [[len(states), *map(states.count, ("open", "met", "waived", "withdrawn"))]]}

    def ask_changes(self, request):
        refuse_if(not 1 <= request["duty"] <= len(self.duties), 23)
        return {"rows": self.duties[request["duty"] - 1].changes}

    def ask_findings(self, request):
        document = self.document(request)
        return {"rows": second_lists.findings(document.data, document.profile)}

    def ask_release(self, request):
        release = self.release(request)
        rows = [[release.name, release.form, release.state, release.revision]]
        for number, name in self.shipped(release):
            document = self.documents[number - 1]
            chosen = [term.decode() for term in release.choices.get((number, name), [])]
            rows.append([number, name, document.packages[name][1].decode(), document.concluded(name)[0], chosen])
        return {"rows": rows}

    def tree(self, request, document):
        tree = document.concluded(request["package"])[1]
        refuse_if(tree is None, 16, request["document"], request["package"])
        refuse_if(len(second_lists.terms_of(tree)) > second_lists.TERMS, 29)
        sets = second_lists.minimal_sets(tree)
        refuse_if(sets is None, 28)
        return sets

    def ask_alternatives(self, request):
        sets = self.tree(request, self.package(request))
        return {"rows": [[term.decode() for term in some] for some in sets]}

    def ask_cheapest(self, request):
        document = self.package(request)
        refuse_if(request["form"] not in self.forms(), 11)
        sets, rules = self.tree(request, document), self.rules()

        def cost(term):
            rule = rules.get((second_lists.adopted(document.adopted, term), request["form"]))
            return None if rule is None else len(rule.codes.split())

        paid = [(sum(map(cost, some)), place, some) for place, some in enumerate(sets) if None not in map(cost, some)]
        return {"rows": [[total, [term.decode() for term in some]] for total, _, some in [min(paid)]] if paid else []}

    def ask_releases(self, request):
        rows = []
        for name in sorted(self.releases):
            release = self.releases[name]
            rows.append([name, release.form, release.state, release.revision, *self.ask_totals({"release": name})["rows"][0]])
        return {"rows": rows}

    def ask_documents(self, request):
        rows = [[document.read.namespace.decode(), 1 + (document.profile != second_judge.CAPITALS), len(document.shipped())] for document in self.documents]
        return {"rows": [[number, *row] for number, row in enumerate(rows, 1)]}

    def ask_open(self, request):
        duties = [duty for name in sorted(self.releases) for duty in self.releases[name].duties if duty.state == "open"]
        return {"rows": [[duty.number, duty.release.name, *duty.row, duty.changes[-1][1]] for duty in duties]}

    def stands_against(self, release, number, package):
        """The refusals against a package, each with its values."""
        document, rules = self.documents[number - 1], self.rules()
        terms = release.choices.get((number, package), [])
        adopted = {term: second_lists.adopted(document.adopted, term) for term in terms}
        lacks_conclusion = document.concluded(package)[1] is None
        return [
            *([(16, number, package)] if lacks_conclusion else []),
            *([] if terms else [(19, number, package)]),
            *((21, number, term.partition(b" WITH ")[0].decode()) for term in terms if adopted[term] is None),
            *((22, number, package, term.decode()) for term in terms if adopted[term] and (adopted[term], release.form) not in rules),
        ]

    def ask_wanting(self, request):
        release = self.release(request)
        refuse_if(release.state != "open", 13, release.state)
        found = [refusal for number, name in self.shipped(release) for refusal in self.stands_against(release, number, name)]
        return {"rows": [Refused(*refusal).told for refusal in (dict.fromkeys(found) if release.documents else [(20,)])]}

    def ask_ready(self, request):
        refuse_if("day" in request and not second_judge.is_day(request["day"].encode()), 26)
        release = self.release(request)
        refuse_if(release.state != "frozen", 13, release.state)
        return {"rows": [duty.told() for duty in release.duties if duty.state == "open" or "day" in request and duty.is_over(request["day"])]}

    def needed(self, release):
        """The texts that terms chosen or possible name, in the order of first use: of an id, or of a reference in a document."""
        for number, name in self.shipped(release):
            document = self.documents[number - 1]
            tree = document.concluded(name)[1]
            possible = [] if tree is None else second_lists.terms_of(tree)
            for term in release.choices.get((number, name)) or sorted(possible):
                licence, _, exception = term.decode().partition(" WITH ")
                is_reference = term.startswith(second_judge.RESERVED)
                yield (number, licence) if is_reference else (0, licence.removesuffix("+"))
                if exception:
                    yield 0, exception

    def lacks(self, catalogue, number, name):
        """Whether nobody has the text of an id, or of a reference in a document."""
        if number:
            return dict(self.documents[number - 1].read.references).get(name.encode()) in NOTHING
        return name not in {second_judge.folded(text["licence"].encode()).decode() for text in catalogue.get("text", [])}

    def ask_gaps(self, request):
        release = self.release(request)
        refuse_if(release.state == "withdrawn", 13, release.state)
        number = release.revision or len(self.catalogues)
        catalogue = catalogue_faults.toml_of(self.catalogues[number - 1].decode()) if number else {}
        rows = [["text", *text] for text in dict.fromkeys(self.needed(release)) if self.lacks(catalogue, *text)]
        packages, first = self.shipped(release), {}
        of = {(number, name): self.documents[number - 1].packages[name] for number, name in packages}
        rows += [["copyright", number, name] for number, name in packages if of[number, name][4] in NOTHING]
        rows += [["shipment", number, ""] for number in sorted(release.documents) if not any(number == ships for ships, _ in packages)]
        for number, name in packages:
            first.setdefault(of[number, name][1:3], number)
        return {"rows": rows + [["twice", number, name] for number, name in packages if first[of[number, name][1:3]] != number]}
