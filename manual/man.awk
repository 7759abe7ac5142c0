# Writes the manual page: man.in, with each line @NAME@ replaced by what the help says. Below COMMANDS each subcommand has its help in
# the order in which it is printed.

# Words of a command line: the program and its subcommand stand out, and names of values too.
function call(text,    rest, start, out) {
    match(text, /^[a-z]+( [a-z]+)*/)
    out = "\\fB" roff(substr(text, 1, RLENGTH)) "\\fR"
    rest = substr(text, RLENGTH + 1)
    while (match(rest, /<[A-Z]+>/)) {
        start = roff(substr(rest, 1, RSTART - 1))
        out = out start "\\fI" substr(rest, RSTART, RLENGTH) "\\fR"
        rest = substr(rest, RSTART + RLENGTH)
    }
    return out roff(rest)
}

# A name, and below it its description.
function entry(name, text) {
    print ".TP"
    print name
    print roff(text)
}

function option(i,    name) {
    if (shorts[i] != "") name = "\\fB" roff(shorts[i]) "\\fR"
    if (longs[i] != "") name = name (name == "" ? "" : ", ") "\\fB" roff(longs[i]) "\\fR"
    if (values[i] != "") name = name " \\fI" roff(values[i]) "\\fR"
    entry(name, helps[i])
}

# Whether the indented lines from one to another are names with what they mean, two blanks or more between: then each
# line that is indented further continues the line before it.
function are_entries(from, to,    i) {
    for (i = from; i <= to; i++) if (lines[i] !~ /^   / && lines[i] !~ /^  [^ ]+( [^ ]+)*  +[^ ]/) return 0
    return lines[from] !~ /^   /
}

function entries(from, to,    i, text, at, name) {
    for (i = from; i <= to; i++) {
        text = lines[i]
        sub(/^ +/, "", text)
        if (lines[i] ~ /^   /) {
            print roff(text)
        } else {
            at = match(text, /  +/)
            name = roff(substr(text, 1, at - 1))
            entry("\\fB" name "\\fR", substr(text, at + RLENGTH))
        }
    }
}

# Lines that stay as they are.
function example(from, to,    i) {
    print ".PP"
    print ".RS 4"
    print ".nf"
    for (i = from; i <= to; i++) print roff(substr(lines[i], 3))
    print ".fi"
    print ".RE"
}

function paragraph(from, to,    i) {
    print ".PP"
    for (i = from; i <= to; i++) print roff(lines[i])
}

function is_text(i, at) { return i <= count && pages[i] == pages[at] && whats[i] == "text" && lines[i] != "" }

# Writes a block of lines from one on, and returns the last of them.
function block(from,    to, is_indented) {
    is_indented = lines[from] ~ /^ /
    for (to = from; is_text(to + 1, from) && (lines[to + 1] ~ /^ /) == is_indented; to++);
    if (!is_indented) paragraph(from, to)
    else if (are_entries(from, to)) entries(from, to)
    else example(from, to)
    return to
}

# Writes the help of a page, from one line to another.
function contents(wanted, from, to,    i, name) {
    for (i = from; i <= to; i++) {
        if (pages[i] != wanted) continue
        if (whats[i] == "about") print roff(lines[i])
        else if (whats[i] == "usage") printf ".PP\n%s\n", call(lines[i])
        else if (whats[i] == "head") printf ".PP\n%s\n", roff(lines[i])
        else if (whats[i] == "command") entry("\\fB" roff(lines[i]) "\\fR", helps[i])
        else if (whats[i] == "argument") entry("\\fI" roff(values[i]) "\\fR", helps[i])
        else if (whats[i] == "option") option(i)
        else if (is_text(i, i)) i = block(i)
    }
}

# The files that options and arguments name, each once, and the one that the desk writes beside its own.
function files(    i, j, told, name, text, at) {
    for (i = 1; i <= count; i++) {
        if (kinds[i] != "file" && kinds[i] != "folder" || told[values[i], helps[i]]++) continue
        entry("\\fI" bare(values[i]) "\\fR", helps[i])
    }
    for (i = 1; i <= count; i++) {
        if (lines[i] !~ /^FILE-wal | FILE-wal / || whats[i] != "text") continue
        for (j = i; is_text(j - 1, i); j--);
        for (text = ""; is_text(j, i); j++) text = text (text == "" ? "" : " ") lines[j]
        at = index(text, "FILE-wal")
        name = substr(text, at)
        if (match(name, /\. /)) text = substr(text, 1, at + RSTART - 1)
        entry("\\fIFILE\\fB\\-wal\\fR", text)
        return
    }
}

function usages(    i) {
    for (i = 1; i <= count; i++) {
        if (whats[i] != "usage") continue
        if (pages[i] != "-") print ".br"
        print call(lines[i])
    }
}

function of_the_program(kind,    i) {
    for (i = 1; i <= last && pages[i] == "-"; i++) {
        if (whats[i] != kind) continue
        if (kind == "option") option(i)
        else entry("\\fB" roff(lines[i]) "\\fR", helps[i])
    }
}

function sections(    i) {
    for (i = 1; i <= commands; i++) {
        print ".SS " names[i]
        contents(names[i], last + 1, count)
    }
}

what == "version" { version = $3 }
what == "about" && page == "-" { about = $3 }
what == "text" && page == "-" && $3 == "Statuses:" { statuses = count }
what != "" && page == "-" { last = count }

NR == FNR { next }

/^@title@$/ { printf ".TH DESK 1 \"\" \"%s\" \"User Commands\"\n", roff(version) }
/^@name@$/ { print "desk \\- " roff(about) }
/^@usages@$/ { usages() }
/^@about@$/ { print roff(about) }
/^@commands@$/ { of_the_program("command") }
/^@options@$/ { of_the_program("option") }
/^@sections@$/ { sections() }
/^@statuses@$/ { contents("-", statuses + 1, last) }
/^@files@$/ { files() }
!/^@[a-z]+@$/ { print }
