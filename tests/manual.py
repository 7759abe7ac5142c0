"""Compares the manual page and the completions with the help that they are made from: python3 tests/manual.py PROGRAM

manual/manual.sh makes them from the program, and again from a small program whose help has each character that a file must quote. Here the
help is read by a second reader. The page and each completion must have each subcommand and each option with its words, and no others; what the
page says about a subcommand must be its help, word for word. If a shell is installed, it reads its file; bash and fish also print the
completions that they offer. After `do` and `ask`, bash offers each request, the keys that it still lacks, and the releases of an existing
desk.
"""

import os
import re
import shlex
import shutil
import subprocess
import sys
import tempfile

sys.dont_write_bytecode = True

from words import rows_of

HERE = os.path.dirname(os.path.abspath(__file__))
TREE = os.path.dirname(HERE)
PAGE, BASH = "man/man1/desk.1", "bash-completion/completions/desk"
ZSH, FISH = "zsh/site-functions/_desk", "fish/vendor_completions.d/desk.fish"
ROFF = {"-": "-", "&": "", "(rs": "\\", "(aq": "'", "(ga": "`", "(ha": "^", "(ti": "~", "fB": "", "fI": "", "fR": ""}
ESCAPE = re.compile(r"\\(\(..|f.|.)")
MACROS = {".TH", ".SH", ".SS", ".TP", ".PP", ".RS", ".RE", ".nf", ".fi", ".br", ".nh", ".ad"}
OFFERED = ("file", "folder", "command")
RELEASES = {"kettle-1.0", "r1", "r2"}

# A program that prints, for the words of its command line, the file that they name.
OTHER = """#!/bin/sh
cat "$0.$(echo "$*" | tr ' ' '.')"
"""
ODD = r"""Says \\e of 'it' `it` $it "it" ^it~ [it]: and \(aq it's: done"""
OTHER_HELPS = {
    "--version": "desk 0.0.1-odd\n",
    "help": f"{ODD}\n\nUsage: desk <COMMAND>\n\nCommands:\n  odd     {ODD}\n  plain   Says nothing\n\n"
    f"Options:\n  -h, --help  {ODD}\n\nStatuses:\n  0  {ODD}\n",
    "help.odd": f"{ODD}\n\n'Says\n.SH this\n\\and this:\n\n  .first   {ODD}\n           'goes on\n  a name   .and\n\n"
    f"  '{ODD}\n    .{ODD}\n\nUsage: desk odd [OPTIONS] [FILE]...\n\nArguments:\n  [FILE]...\n          The file of {ODD}\n\n"
    f"Options:\n  -o, --out-to <OUT>\n          The file of {ODD}\n          \n          [default: a\\b]\n\n"
    f"      --dir <DIR>\n          The folder of {ODD}\n\n  -q\n          {ODD}\n\nExample:\n  desk odd '\\n'\n",
    "help.plain": "Says nothing\n\nUsage: desk plain\n",
}

failures = []


def compare(what, found, wanted):
    """Prints each entry that only one of two tables has, or on which they differ."""
    for key in sorted(set(found) | set(wanted), key=str):
        if found.get(key) != wanted.get(key):
            failures.append(f"{what}: {key} is {found.get(key)!r} here and {wanted.get(key)!r} in the help")


def compare_words(what, found, wanted):
    """Prints the first words in which two texts differ."""
    found, wanted = found.split(), wanted.split()
    if found != wanted:
        at = next((n for n, pair in enumerate(zip(found, wanted)) if pair[0] != pair[1]), min(len(found), len(wanted)))
        here, there = (" ".join(words[at : at + 6]) for words in (found, wanted))
        failures.append(f"{what}: word {at} on is {here!r} here and {there!r} in the help")


def text_at(*path):
    with open(os.path.join(*path), encoding="utf-8") as file:
        return file.read()


def run(*words):
    """What a command prints, which must end well."""
    done = subprocess.run(words, stdin=subprocess.DEVNULL, capture_output=True, text=True, check=False)
    if done.returncode:
        failures.append(f"{' '.join(words)[:200]}: status {done.returncode}, {done.stderr.strip()}")
    return done.stdout


def kind_of(value, text):
    """What can be offered for a value."""
    if not value:
        return "none"
    if "COMMAND" in value:
        return "command"
    start = re.match(r"The (file|folder) ", text)
    return start.group(1) if start else "any"


def entries(text, heading):
    """The entries below a heading of a help, each with its words."""
    found = re.search(rf"^{heading}:\n((?: .*\n|\n)*)", text + "\n", flags=re.M)
    below = found.group(1) if found else ""
    for entry in re.split(r"^(?= {2,6}\S)", below, flags=re.M)[1:]:
        name, words = re.match(r" +(\S+(?: \S+)*)\s+(.*)", entry, flags=re.S).groups()
        yield name, " ".join(words.split())


class Words:
    """What a help or a file has: the subcommands, and by subcommand the options, the kinds of their values, and the places for which
    something can be offered. A help also has names of files and folders."""

    def __init__(self):
        self.commands, self.options, self.kinds, self.places = {}, {}, {}, {}
        self.files = {}

    def add_file(self, name, text):
        if kind_of(name, text) in ("file", "folder"):
            self.files.setdefault(name.strip("[]<>."), set()).add(text)

    def add_option(self, command, form, text, kind):
        self.options[command, form], self.kinds[command, form] = text, kind

    def add_place(self, command, place, kind):
        if kind in OFFERED:
            self.places[command, str(place)] = kind

    def compare(self, what, other):
        for part in ("commands", "options", "kinds", "places"):
            compare(f"{what}, {part}", getattr(self, part), getattr(other, part))


def words_of(helps):
    """What the texts of help have."""
    words = Words()
    words.commands = dict(entries(helps[""], "Commands"))
    for command, text in helps.items():
        for name, told in entries(text, "Options"):
            value = "".join(re.findall(r" (\S+)$", re.sub(r"-\S+$", "", name)))
            words.add_file(value, told)
            for form in re.findall(r"(?<!\S)-[^\s,]+", name):
                words.add_option(command, form, told, kind_of(value, told))
        for place, (name, told) in enumerate(entries(text, "Arguments")):
            kind = kind_of(name, told)
            words.add_file(name, told)
            words.add_place(command, "*" if name.endswith("...") and kind != "command" else place, kind)
    return words


def plain(line):
    """A line of roff without its escapes."""
    if line[:1] in (".", "'"):
        failures.append(f"{PAGE}: no macro that a page has: {line}")
    if re.search(r"[-'`^~\\]", ESCAPE.sub("", line)):
        failures.append(f"{PAGE}: a character that roff changes: {line}")
    return ESCAPE.sub(lambda found: ROFF.get(found.group(1), found.group(0)), line)


def sections_of(page):
    """Of each section, and of each subsection of COMMANDS: its entries with their words, and all its text."""
    found, name, entry, is_name = {}, "", "", False
    for line in page.splitlines():
        macro, _, rest = line.partition(" ")
        if line.startswith('.\\"'):
            continue
        if macro in (".SH", ".SS"):
            name = rest
            found[name], entry = ({}, []), ""
        elif macro in MACROS:
            is_name = macro == ".TP"
            entry = entry if macro == ".br" else ""
        elif is_name:
            entry, is_name = plain(line), False
            # (a name may stand for several files: each text begins a line)
            found[name][0][entry] = f"{found[name][0][entry]}\n" if entry in found[name][0] else ""
            found[name][1].append(entry)
        else:
            text = plain(line)
            found[name][1].append(text)
            if entry:
                found[name][0][entry] = f"{found[name][0][entry]} {text}".strip(" ").replace("\n ", "\n")
    return {name: (told, " ".join(" ".join(lines).split())) for name, (told, lines) in found.items()}


def check_page(page, helps, words):
    sections = sections_of(page)
    about = helps[""].split("\n")[0]
    compare_words(f"{PAGE}, NAME", sections["NAME"][1], f"desk - {about}")
    usages = [re.search(r"^Usage: (.*)$", text, flags=re.M).group(1) for text in helps.values()]
    compare_words(f"{PAGE}, SYNOPSIS", sections["SYNOPSIS"][1], " ".join(usages))
    compare(f"{PAGE}, commands", sections["DESCRIPTION"][0], words.commands)
    statuses = helps[""].split("\nStatuses:\n")[1]
    compare_words(f"{PAGE}, EXIT STATUS", sections["EXIT STATUS"][1], statuses)
    others = {"NAME", "SYNOPSIS", "DESCRIPTION", "OPTIONS", "COMMANDS", "EXIT STATUS", "FILES", "SEE ALSO"}
    compare(f"{PAGE}, sections", dict.fromkeys(sections, "there"), dict.fromkeys([*others, *words.commands], "there"))
    found = {}
    for command, text in helps.items():
        told, everything = sections[command or "OPTIONS"]
        for name, help_text in told.items():
            if name.startswith("-"):
                found.update({(command, form): help_text for form in re.findall(r"(?<!\S)-[^\s,]+", name)})
        if command:
            compare_words(f"{PAGE}, {command}", everything, re.sub(r"^Usage: ", "", text, flags=re.M))
    compare(f"{PAGE}, options", found, words.options)
    files = {name: set(texts.split("\n")) for name, texts in sections["FILES"][0].items()}
    everything = " ".join(" ".join(helps.values()).split())
    beside = " ".join(files.pop("FILE-wal", [""]))
    if beside not in everything or bool(beside) != ("FILE-wal" in everything):
        failures.append(f"{PAGE}, FILES: FILE-wal is {beside!r}, which no help has")
    compare(f"{PAGE}, FILES", files, words.files)
    pages = re.findall(r"\bdocs/\w+\.md", sections["SEE ALSO"][1])
    failures.extend(f"{PAGE}, SEE ALSO: there is no {path}" for path in pages if not os.path.exists(os.path.join(TREE, path)))


def part_of(text, start, end):
    return re.search(rf"^{re.escape(start)}$(.*?)^{re.escape(end)}$", text, flags=re.M | re.S).group(1)


def check_bash(text, words):
    found = Words()
    blocks = re.compile(r"^        (\S+)\)\n            offered=\(\n(.*?)^            \)$", flags=re.M | re.S)
    for name, block in blocks.findall(part_of(text, "_desk_offer_value() {", "}")):
        parts = shlex.split(block)
        found.commands = dict(zip(parts[::2], parts[1::2]))
    options = {}
    for name, block in blocks.findall(part_of(text, "_desk_offer_options() {", "}")):
        parts = shlex.split(block)
        options.update({(name.strip("'"), form): told for form, told in zip(parts[::2], parts[1::2])})
    rows = re.compile(r"^        (\S*):(\S+)\) kind=(\w+) ;;$", flags=re.M)
    kinds = {row[:2]: row[2] for row in rows.findall(part_of(text, "_desk_kind_of_option() {", "}"))}
    failures.extend(f"{BASH}: {key} has a kind, and is no option" for key in kinds if key not in options)
    for (name, form), told in options.items():
        found.add_option(name, form, told, kinds.get((name, form), "none"))
    for name, place, kind in rows.findall(part_of(text, "_desk_kind_of_place() {", "}")):
        if name:
            found.add_place(name, place, kind)
    found.compare(BASH, words)


def check_zsh(text, words):
    found = Words()
    actions = {"_files": "file", "_files -/": "folder", "_desk_commands": "command", "_desk_requests": "any", " ": "any", "": "none"}

    def undone(part):
        return re.sub(r"\\(.)", r"\1", part)

    def add(command, block):
        for spec in shlex.split(block):
            option = re.fullmatch(r"\((.*?)\)(-[^[=+]+)[=+]?\[((?:\\.|[^][\\])*)\](?::\w+:(.*))?", spec, flags=re.S)
            argument = re.fullmatch(r"(\d+|\*):((?:\\.|[^:\\])*):(.*)", spec, flags=re.S)
            if option:
                found.add_option(command, option.group(2), undone(option.group(3)), actions[option.group(4) or ""])
            elif argument:
                place = argument.group(1)
                found.add_place(command, place if place == "*" else int(place) - 1, actions[argument.group(3)])
            else:
                failures.append(f"{ZSH}: what is {spec}?")

    offered = part_of(text, "    local -a offered=(", "    )")
    found.commands = {name: undone(told) for name, told in (row.split(":", 1) for row in shlex.split(offered))}
    add("", part_of(text, "    local -a specs=(", "        '1:command:_desk_commands'"))
    for name, block in re.findall(r"^        (\S+)\)\n            specs=\(\n(.*?)^            \)$", text, flags=re.M | re.S):
        add(name, block)
    found.compare(ZSH, words)


def check_fish(text, words):
    found = Words()
    lists = {}
    for line in re.findall(r"^complete -c desk -n ('__desk_is_at .*)$", text, flags=re.M):
        parts = re.findall(r"'(?:\\.|[^'\\])*'|\S+", line)
        parts = [re.sub(r"\\(['\\])", r"\1", part[1:-1]) if part[0] == "'" else part for part in parts]
        at, parts = parts[0].split()[1:], parts[1:]
        command, place = at[0].strip('"'), at[1] if len(at) > 1 else "*"
        values = {flag: parts[parts.index(flag) + 1] for flag in ("-a", "-d", "-s", "-l") if flag in parts}
        kind = "file" if "-F" in parts else "folder" if "directories" in values.get("-a", "") else "any"
        forms = [dashes + values[flag] for dashes, flag in (("-", "-s"), ("--", "-l")) if flag in values]
        if forms:
            for form in forms:
                found.add_option(command, form, values["-d"], kind if "-r" in parts else "none")
        elif kind == "any":
            lists.setdefault((command, place), {})[values["-a"]] = values["-d"]
        else:
            found.add_place(command, place, kind)
    found.commands = lists.pop(("", "*"), {})
    for (command, place), offered in lists.items():
        found.add_place(command, place, "command")
        compare(f"{FISH}, {command}", offered, words.commands)
    found.compare(FISH, words)
    takers = {tuple(row.split(":")) for row in re.search(r"^set -g __desk_takers ?(.*)$", text, flags=re.M).group(1).split()}
    compare(f"{FISH}, values", dict.fromkeys(takers, "taken"), {key: "taken" for key, kind in words.kinds.items() if kind != "none"})


ASK_BASH = r"""
. "$1"
shift
compopt() { COMPREPLY=("$2"); }
for line; do
    IFS=/ read -r -a words <<<"$line/"
    COMP_LINE=${words[*]}
    # bash cuts words at : and = too.
    line=${line//:/\/:\/}
    IFS=/ read -r -a COMP_WORDS <<<"${line//=/\/=\/}/"
    COMP_CWORD=$((${#COMP_WORDS[@]} - 1)) COMP_TYPE=9
    _desk
    printf '%s\n' "${COMPREPLY[@]}" .
done
"""


def questions(words):
    """Beginnings of command lines, their words separated by strokes, each with its subcommand and what must be offered: some words, or the
    values of a kind."""
    options = {command: {form for other, form in words.options if other == command} for command in ["", *words.commands]}
    yield "desk/", "", "command"
    yield "desk/-", "", options[""]
    for command in words.commands:
        yield f"desk/{command}/-", command, options[command]
    for (command, form), kind in words.kinds.items():
        if kind in OFFERED:
            yield f"desk/{command}/{form}/", command, kind
        if kind != "none":
            yield f"desk/{command}/{form}/a:b/-", command, options[command]
    for (command, place), kind in words.places.items():
        before = f"desk/{command}/" + "a:b/" * int(place.replace("*", "2"))
        yield before, command, kind
        takers = [form for (other, form), taken in words.kinds.items() if other == command and taken != "none"]
        yield from ((f"{before}{form}/a:b/", command, kind) for form in takers)
        if place != "*":
            yield f"{before}a:b/", command, "none"


def answers_to(words, kinds):
    """What must be offered for each question, if the shell offers these for words of a kind."""
    for line, command, wanted in questions(words):
        if wanted == "none" and wanted not in kinds:
            wanted = {form for other, form in words.options if other == command}
        yield line, set(words.commands) if wanted == "command" else kinds[wanted] if isinstance(wanted, str) else wanted


def compare_answers(shell, told, asked):
    """Compares what a shell offers for each line (one answer on each line, and a full stop after each list) with what must be offered."""
    answers = [set()]
    for row in told.splitlines():
        if row == ".":
            answers.append(set())
        elif row:
            answers[-1].add(row.split("\t")[0])
    compare(f"what {shell} offers", dict(zip(asked, answers)), asked)


def ask_bash(path, words):
    run("bash", "-n", path)
    # If there is nothing else to offer, bash offers the options.
    asked = dict(answers_to(words, {"file": {"default"}, "folder": {"dirnames"}}))
    compare_answers("bash", run("bash", "--norc", "-c", ASK_BASH, "bash", path, *asked), asked)


def requests_asked(helps):
    """Beginnings of requests, as for `questions`, each with what must be offered."""
    for verb in ("do", "ask"):
        forms = dict(rows_of(helps[verb]))
        yield f"desk/{verb}/--db/desk.db/", set(forms)
        for word, keys in forms.items():
            keys = [key.strip("[]") for key in keys]
            before = f"desk/{verb}/--db/desk.db/{word}/"
            yield before, {f"{key}=" for key in keys}
            for key in keys:
                yield f"{before}{key}=x/", {f"{other}=" for other in keys if other != key}
            yield f"{before}release=", RELEASES if "release" in keys else set()
            if "release" in keys:
                yield f"{before}release=r", {name for name in RELEASES if name[0] == "r"}
                yield f"desk/{verb}/--db=desk.db/{word}/release=", RELEASES
                yield f"desk/{verb}/--db/none.db/{word}/release=", set()


def ask_requests(path, program, helps, room):
    """What bash offers after do and ask, with a desk of some releases and without a file."""
    os.symlink(program, os.path.join(room, "desk"))
    paths = {**os.environ, "PATH": room + os.pathsep + os.environ["PATH"]}
    catalogue = os.path.join(TREE, "examples/first-release/catalogue.toml")
    rows = [["catalogue", "--db", "desk.db", catalogue], *(["do", "--db", "desk.db", "open", f"release={name}", "form=binary"] for name in RELEASES)]
    for row in rows:
        subprocess.run(["desk", *row], cwd=room, env=paths, stdout=subprocess.DEVNULL, check=True)
    asked = dict(requests_asked(helps))
    told = subprocess.run(["bash", "--norc", "-c", ASK_BASH, "bash", path, *asked], cwd=room, env=paths, stdout=subprocess.PIPE, text=True, check=True).stdout
    compare_answers("bash", told, asked)
    if os.path.exists(os.path.join(room, "none.db")):
        failures.append(f"{BASH}: a file was made that was not there")


def ask_fish(path, words, room):
    run("fish", "-n", path)
    home = os.path.join(room, "home")
    os.makedirs(os.path.join(home, "folder"))
    with open(os.path.join(home, "file"), "w", encoding="utf-8"):
        pass
    asked = dict(answers_to(words, {"file": {"file", "folder/"}, "folder": {"folder/"}, "none": set()}))
    script = 'set -gx HOME $argv[2]; cd $argv[2]; source $argv[1]; for line in $argv[3..-1]; complete -C $line; echo .; end'
    told = run("fish", "--no-config", "-c", script, path, home, *(line.replace("/", " ") for line in asked))
    compare_answers("fish", told, asked)


def check(program, room):
    os.makedirs(room)
    share = os.path.join(room, "share")
    run("sh", os.path.join(TREE, "manual/manual.sh"), program, share)
    if failures:
        return
    helps = {"": run(program, "help")}
    helps.update({name: run(program, "help", name) for name, _ in list(entries(helps[""], "Commands"))})
    words = words_of(helps)
    if not words.commands or not words.options or "file" not in words.kinds.values():
        failures.append(f"{program}: its help has no subcommands, no options, or none with a file")
    check_page(text_at(share, PAGE), helps, words)
    check_bash(text_at(share, BASH), words)
    check_zsh(text_at(share, ZSH), words)
    check_fish(text_at(share, FISH), words)
    if shutil.which("mandoc") and run("mandoc", "-T", "lint", "-W", "error", os.path.join(share, PAGE)):
        failures.append(f"{PAGE}: mandoc finds an error")
    if shutil.which("bash"):
        ask_bash(os.path.join(share, BASH), words)
        if "do" in words.commands:
            ask_requests(os.path.join(share, BASH), program, helps, room)
    if shutil.which("zsh"):
        run("zsh", "-n", os.path.join(share, ZSH))
    if shutil.which("fish"):
        ask_fish(os.path.join(share, FISH), words, room)


def main():
    with tempfile.TemporaryDirectory() as scratch:
        other = os.path.join(scratch, "other")
        for end, text in {"": OTHER, **{"." + words: text for words, text in OTHER_HELPS.items()}}.items():
            with open(other + end, "w", encoding="utf-8") as file:
                file.write(text)
        os.chmod(other, 0o755)
        check(os.path.abspath(sys.argv[1]), os.path.join(scratch, "made"))
        check(other, os.path.join(scratch, "odd"))
    for failure in failures:
        print(failure)
    print(f"manual: {len(failures)} differences" if failures else "manual: passed")
    return 1 if failures else 0


if __name__ == "__main__":
    sys.exit(main())
