# Writes the completion for bash: bash.in, with each line @NAME@ replaced by what the help says. Readline itself completes the names
# of files and folders.

function word(name, help) {
    if (name != "") print indent name " " quoted(help)
}

function options(wanted,    i) {
    print indent (wanted == "-" ? "''" : wanted) ")"
    print indent "    offered=("
    indent = indent "        "
    for (i = 1; i <= count; i++) {
        if (pages[i] != wanted || whats[i] != "option") continue
        word(shorts[i], helps[i])
        word(longs[i], helps[i])
    }
    indent = substr(indent, 9)
    print indent "    )"
    print indent "    ;;"
}

function kind(i, what) {
    if (what != "") print indent (pages[i] == "-" ? "" : pages[i]) ":" what ") kind=" kinds[i] " ;;"
}

function kinds_of_options(    i) {
    for (i = 1; i <= count; i++) {
        if (whats[i] != "option" || kinds[i] == "none") continue
        kind(i, shorts[i])
        kind(i, longs[i])
    }
}

function kinds_of_places(    i) {
    for (i = 1; i <= count; i++) if (whats[i] == "argument") kind(i, is_many[i] ? "*" : places[i])
}

function requests_of(name,    i, out) {
    for (i = 1; i <= requests; i++) if (request_pages[i] == name) out = out " " request_names[i]
    return substr(out, 2)
}

# The words of requests, and the keys of each.
function all_requests(    i, n) {
    for (n = 1; n <= commands; n++) {
        if (!has_requests(names[n])) continue
        print indent names[n] ":) requests=(" requests_of(names[n]) ") ;;"
        for (i = 1; i <= requests; i++) {
            if (request_pages[i] == names[n]) print indent names[n] ":" request_names[i] ") keys=(" request_keys[i] ") ;;"
        }
    }
}

NR == FNR { next }

/^ *@[a-z]+@$/ {
    indent = $0
    sub(/@.*/, "", indent)
    if ($0 ~ /@commands@/) for (i = 1; i <= commands; i++) word(names[i], abouts[i])
    if ($0 ~ /@options@/) for (i = 0; i <= commands; i++) options(i ? names[i] : "-")
    if ($0 ~ /@kinds@/) kinds_of_options()
    if ($0 ~ /@places@/) kinds_of_places()
    if ($0 ~ /@requests@/) all_requests()
    next
}

{ print }
