# Writes the completion for zsh: zsh.in, with each line @NAME@ replaced by what the help says.

function action(kind) {
    if (kind == "file") return "_files"
    if (kind == "folder") return "_files -/"
    if (kind == "command") return "_desk_commands"
    if (kind == "request") return "_desk_requests"
    return " "
}

# An option as a word of _arguments, one or two. Its forms exclude each other, and itself.
function option(i,    value, names) {
    value = kinds[i] == "none" ? "" : ":" bare(values[i]) ":" action(kinds[i])
    names = shorts[i] (shorts[i] != "" && longs[i] != "" ? " " : "") longs[i]
    if (shorts[i] != "") spec(names, shorts[i] (value == "" ? "" : "+"), helps[i], value)
    if (longs[i] != "") spec(names, longs[i] (value == "" ? "" : "="), helps[i], value)
}

function spec(names, name, help, value) {
    print indent quoted("(" names ")" name "[" described(help) "]" value)
}

function argument(i,    place) {
    place = is_many[i] ? "*" : places[i] + 1
    print indent quoted(place ":" described(helps[i]) ":" action(kinds[i]))
}

function contents(wanted,    i) {
    for (i = 1; i <= count; i++) {
        if (pages[i] == wanted && whats[i] == "option") option(i)
        if (pages[i] == wanted && whats[i] == "argument") argument(i)
    }
}

function branch(name) {
    print indent name ")"
    print indent "    specs=("
    indent = indent "        "
    contents(name)
    indent = substr(indent, 9)
    print indent "    )"
    print indent "    ;;"
}

# The words of requests, and the keys of each.
function all_requests(    i, n, out) {
    for (n = 1; n <= commands; n++) {
        if (!has_requests(names[n])) continue
        out = ""
        for (i = 1; i <= requests; i++) {
            if (request_pages[i] != names[n]) continue
            out = out " " request_names[i]
            print indent names[n] ":" request_names[i] ") offered=(" request_keys[i] ") ;;"
        }
        print indent names[n] ":) offered=(" substr(out, 2) ") ;;"
    }
}

NR == FNR { next }

/^ *@[a-z]+@$/ {
    indent = $0
    sub(/@.*/, "", indent)
    if ($0 ~ /@commands@/) for (i = 1; i <= commands; i++) print indent quoted(names[i] ":" described(abouts[i]))
    if ($0 ~ /@program@/) contents("-")
    if ($0 ~ /@requests@/) all_requests()
    if ($0 ~ /@options@/) for (i = 1; i <= commands; i++) branch(names[i])
    next
}

{ print }
