"""Runs the licence step of a build on releases: python3 tests/building.py PROGRAM

examples/build/licences.sh freezes a release, and fails as long as a duty is open or a waiver has ended. Once the duty is met, it succeeds,
and has written what the desk writes. It fails before a freeze if a conclusion is missing, and continues once the proposed one is recorded,
also if it stopped after it had opened the release. It fails with a document other than the release's, and for a release that was withdrawn.
If a tree has no document, it is gathered. The workflows run the script on names that it knows. Ends with the line 'N passed, M failed'.
"""

import os
import re
import subprocess
import sys
import tempfile

HERE = os.path.dirname(os.path.abspath(__file__))
EXAMPLES = os.path.join(HERE, "../examples")
STEP = os.path.join(EXAMPLES, "build/licences.sh")
SECONDS = 300
NONE = "NOASSERTION"
# (in two parts, so that this file doesn't contain the tags)
TAG = "SPDX" "-"


class Building:
    def __init__(self, program, room):
        self.program, self.room = os.path.abspath(program), room
        self.passed, self.failed = 0, 0

    def desk(self, *words, text=None):
        done = subprocess.run([self.program, *words], input=text, capture_output=True, text=True, timeout=SECONDS, check=False, cwd=self.room)
        return done.stdout, done.returncode

    def step(self, release, tree, **names):
        """Runs the step for a release in a folder, and returns its status and what it says of a failure."""
        known = {name: value for name, value in os.environ.items() if name in ("PATH", "HOME", "TMPDIR")}
        names = {"RELEASE": release, "DESK": self.program, "CATALOGUE": f"{EXAMPLES}/first-release/catalogue.toml", **names}
        done = subprocess.run(["sh", STEP], cwd=tree, env={**known, **names}, capture_output=True, text=True, timeout=SECONDS, check=False)
        return done.returncode, done.stderr

    def see(self, what, found, wanted):
        if found == wanted:
            self.passed += 1
        else:
            self.failed += 1
            print(f"{what}: {found!r} instead of {wanted!r}", flush=True)

    def output(self, name):
        with open(os.path.join(self.room, "licences", name), encoding="utf-8") as file:
            return file.read()

    def state(self, release):
        return next((row.split(",")[2] for row in self.desk("list", "--db", "desk.db", "releases")[0].splitlines() if row.startswith(release + ",")), None)

    def meet_all(self):
        for row in self.desk("list", "--db", "desk.db", "--open", "duties")[0].splitlines()[1:]:
            self.see("meet", self.desk("do", "--db", "desk.db", "meet", f"duty={row.split(',')[0]}", "day=today", "text=NOTICES")[1], 0)

    def ships(self, release, tree, **names):
        """The step freezes the release and fails, since its duties are open; once all are met it succeeds."""
        status, why = self.step(release, tree, **names)
        self.see(f"{release}, a duty is open", (status, "Not ready to ship" in why, self.state(release)), (1, True, "frozen"))
        self.meet_all()
        self.see(f"{release}, all are met", self.step(release, tree, **names)[0], 0)
        for name, subcommand in (("NOTICES", "notices"), ("duties.csv", "duties")):
            self.see(f"{release}, {name}", self.output(name), self.desk(subcommand, "--db", "desk.db", release)[0])

    def document(self):
        with open(f"{EXAMPLES}/first-release/document.spdx", encoding="utf-8") as file:
            return file.read()

    def run(self):
        tree = os.path.join(self.room, "tree")
        os.mkdir(tree)
        self.ships("r1", tree, DOCUMENT=f"{EXAMPLES}/first-release/document.spdx")
        open_text = re.sub(r"(?m)^PackageLicenseConcluded: .*$", f"PackageLicenseConcluded: {NONE}\nPackageLicenseDeclared: MIT", self.document())
        open_text = re.sub(r"(?m)^DocumentNamespace: .*$", "DocumentNamespace: https://example.org/spdx/open-1", open_text)
        given = os.path.join(self.room, "open.spdx")
        with open(given, "w", encoding="utf-8") as file:
            file.write(open_text)
        status, why = self.step("r2", tree, DOCUMENT=given)
        self.see("r2, nothing is concluded", (status, "Not frozen" in why, self.state("r2")), (1, True, "open"))
        # (once it has a conclusion, it lacks a choice)
        rows = self.output("wanting.jsonl").splitlines()
        self.see("r2, why", [re.search('"name":"(.*?)"', row).group(1) for row in rows], ["NoConclusion", "NoChoice"])
        self.see("r2, the proposal", self.desk("script", "--db", "desk.db", "--stop", text=self.output("proposed.jsonl"))[1], 0)
        self.ships("r2", tree, DOCUMENT=given)
        with open(os.path.join(tree, "kettle.c"), "w", encoding="utf-8") as file:
            file.write(f"/* {TAG}License-Identifier: MIT\n * {TAG}FileCopyrightText: Kettle Works\n */\n")
        self.ships("r3", tree, NAMESPACE="https://example.org/spdx/r3", CREATED="2025-01-01T00:00:00Z")
        self.other_documents(tree, given)
        self.waived(tree)
        self.see("no document", self.step("r4", tree, DOCUMENT=os.path.join(self.room, "none"))[0] != 0, True)
        self.see("no release", self.step("", tree, DOCUMENT=given)[0] != 0, True)

    def renamed(self, number):
        """A path of the document under another namespace, so that it is another document."""
        path = os.path.join(self.room, f"other-{number}.spdx")
        text = re.sub(r"(?m)^DocumentNamespace: .*$", f"DocumentNamespace: https://example.org/spdx/other-{number}", self.document())
        with open(path, "w", encoding="utf-8") as file:
            file.write(text)
        return path

    def other_documents(self, tree, waiting):
        """A release keeps its document while it is open and once it is frozen; one that nothing is attached to gets it."""
        first, second = self.renamed(1), self.renamed(2)
        status, why = self.step("r2", tree, DOCUMENT=first)
        self.see("r2, frozen with another document", (status, "r2 ships document 2, and this one is document 4" in why), (1, True))
        self.desk("do", "--db", "desk.db", "open", "release=r5", "form=binary")
        self.ships("r5", tree, DOCUMENT=first)
        self.desk("do", "--db", "desk.db", "open", "release=r6", "form=binary")
        self.desk("do", "--db", "desk.db", "attach", "release=r6", "document=1")
        status, why = self.step("r6", tree, DOCUMENT=second)
        self.see("r6, open with another document", (status, "r6 ships document 1, and" in why, self.state("r6")), (1, True, "open"))
        self.desk("do", "--db", "desk.db", "withdraw", "release=r6", "day=today", "text=x")
        status, why = self.step("r6", tree, DOCUMENT=waiting)
        self.see("r6, withdrawn", (status, "r6 was withdrawn" in why), (1, True))

    def waived(self, tree):
        """A waiver that is over keeps a release from being shipped, and one that lasts doesn't."""
        document = self.renamed(3)
        self.see("r7, open duties", self.step("r7", tree, DOCUMENT=document)[0], 1)
        (duty,) = [row.split(",")[0] for row in self.desk("list", "--db", "desk.db", "--open", "duties")[0].splitlines()[1:]]
        waive = ["do", "--db", "desk.db", "waive", f"duty={duty}", "day=2020-01-01", "text=x"]
        self.see("r7, waived for a time", self.desk(*waive, "until=2020-12-31")[1], 0)
        self.see("r7, the waiver is over", self.step("r7", tree, DOCUMENT=document)[0], 1)
        self.see("r7, reopened", self.desk("do", "--db", "desk.db", "reopen", f"duty={duty}", "day=2021-01-01", "text=x")[1], 0)
        self.see("r7, waived", self.desk(*waive)[1], 0)
        self.see("r7, the waiver lasts", self.step("r7", tree, DOCUMENT=document)[0], 0)

    def workflows(self):
        """Each name that a workflow sets is one that the script reads."""
        with open(STEP, encoding="utf-8") as file:
            read = set(re.findall(r"^#   ([A-Z]+) ", file.read(), flags=re.M))
        for name in ("github.yml", "gitlab.yml"):
            with open(os.path.join(EXAMPLES, "build", name), encoding="utf-8") as file:
                text = file.read()
            found = set(re.findall(r"^ +([A-Z]{4,}): ", text, flags=re.M)) | set(re.findall(r"\b([A-Z]{4,})=", text))
            self.see(f"{name}, names", sorted(found - read), [])
            self.see(f"{name}, the script", "sh examples/build/licences.sh" in text, True)


def main():
    (program,) = sys.argv[1:]
    told = subprocess.run([program, "help"], capture_output=True, text=True, check=True).stdout
    with tempfile.TemporaryDirectory() as room:
        building = Building(program, room)
        building.workflows()
        # The step asks `desk ready`.
        if re.search(r"^  ready ", told, flags=re.M):
            building.run()
        else:
            print("the step is not run, since the program has no ready")
    print(f"{building.passed} passed, {building.failed} failed")
    return 1 if building.failed else 0


if __name__ == "__main__":
    sys.exit(main())
