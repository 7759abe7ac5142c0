# What the writers share: how a text is quoted in a file of its kind, and the words that help.awk wrote, which are the first file that is
# read. The second is the text to fill in.

# The text with each character that the map has replaced.
function mapped(text, map,    out, i, c) {
    for (i = 1; i <= length(text); i++) {
        c = substr(text, i, 1)
        out = out (c in map ? map[c] : c)
    }
    return out
}

# One word of bash or zsh.
function quoted(text) {
    return "'" mapped(text, in_shell) "'"
}

# One word of fish, where a backslash counts between quotes too.
function fish_quoted(text) {
    return "'" mapped(text, in_fish) "'"
}

# A text of roff. Quotes and hyphens stay what they are, so that what is copied from the page can be run.
function roff(text) {
    text = mapped(text, in_roff)
    return substr(text, 1, 1) == "." ? "\\&" text : text
}

# A description between brackets or colons of zsh's _arguments, or one of _describe.
function described(text) {
    return mapped(text, in_zsh)
}

# The name of a value without the mark that says how often it may appear: FILE of <FILE>.
function bare(value) {
    gsub(/[][<>.]/, "", value)
    return value
}

# Keeps the words of a line of help, with the keys of a single one. A key that may be left out is in brackets.
function add_requests(line,    parts, names, n, i) {
    split(line, parts, /  +/)
    n = split(parts[1], names, /, /)
    gsub(/[][]/, "", parts[2])
    for (i = 1; i <= n; i++) {
        requests++
        request_pages[requests] = page
        request_names[requests] = names[i]
        request_keys[requests] = n == 1 ? parts[2] : ""
    }
}

# Whether the words of requests are an argument of a page.
function has_requests(page,    i) {
    for (i = 1; i <= count; i++) if (pages[i] == page && whats[i] == "argument" && kinds[i] == "request") return 1
    return 0
}

BEGIN {
    FS = "\t"
    in_shell["'"] = "'\\''"
    in_fish["'"] = "\\'"
    in_fish["\\"] = "\\\\"
    in_roff["\\"] = "\\(rs"
    in_roff["-"] = "\\-"
    in_roff["'"] = "\\(aq"
    in_roff["`"] = "\\(ga"
    in_roff["^"] = "\\(ha"
    in_roff["~"] = "\\(ti"
    in_zsh["\\"] = "\\\\"
    in_zsh[":"] = "\\:"
    in_zsh["["] = "\\["
    in_zsh["]"] = "\\]"
}

NR != FNR { what = "" }

NR == FNR {
    page = $1
    what = $2
    count++
    pages[count] = page
    whats[count] = what
    lines[count] = $3
}

what == "command" {
    commands++
    names[commands] = $3
    abouts[commands] = helps[count] = $4
}

# Above its usage, the help of a page whose argument is WORD lists the words of requests, each with its keys.
what == "text" && !(page in has_usage) && $3 ~ /^  [a-z]/ { add_requests(substr($3, 3)) }

what == "usage" {
    place = 0
    has_usage[page] = 1
}

# Places are counted from 0. What may appear more than once has all places from its own on; only one subcommand can appear.
what == "argument" {
    values[count] = $3
    helps[count] = $4
    kinds[count] = bare($3) == "WORD" ? "request" : $5
    places[count] = place++
    is_many[count] = $3 ~ /\.\.\.$/ && $5 != "command"
}

what == "option" {
    shorts[count] = $3
    longs[count] = $4
    values[count] = $5
    helps[count] = $6
    kinds[count] = $7
}
