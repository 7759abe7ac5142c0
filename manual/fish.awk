# Writes the completion for fish: fish.in, with each @NAME@ replaced by what the help says.

function at(page, place) {
    return "complete -c desk -n " fish_quoted("__desk_is_at " (page == "-" ? "\"\"" : page) (place == "" ? "" : " " place))
}

# What is offered for a value of a kind.
function offered(kind) {
    if (kind == "file") return " -F"
    if (kind == "folder") return " -f -a '(__fish_complete_directories (commandline -ct))'"
    return " -f"
}

function subcommands(page, place,    i) {
    for (i = 1; i <= commands; i++) print at(page, place) " -a " names[i] " -d " fish_quoted(abouts[i])
}

function option(i,    out) {
    out = at(pages[i])
    if (shorts[i] != "") out = out " -s " substr(shorts[i], 2)
    if (longs[i] != "") out = out " -l " substr(longs[i], 3)
    if (kinds[i] != "none") out = out " -r" offered(kinds[i])
    print out " -d " fish_quoted(helps[i])
}

# The words of requests, and the keys of each.
function all_requests(name,    i, keys, n, k) {
    for (i = 1; i <= requests; i++) {
        if (request_pages[i] != name) continue
        print "complete -c desk -n " fish_quoted("__desk_is_request " name) " -a " request_names[i]
        n = split(request_keys[i], keys, / /)
        for (k = 1; k <= n; k++) {
            print "complete -c desk -n " fish_quoted("__desk_is_request " name " " request_names[i] " " keys[k]) " -a " keys[k] "="
        }
    }
    print "complete -c desk -n " fish_quoted("__desk_is_release " name) " -a " fish_quoted("(__desk_releases)")
}

function argument(i,    place) {
    place = is_many[i] ? "" : places[i]
    if (kinds[i] == "request") all_requests(pages[i])
    else if (kinds[i] == "command") subcommands(pages[i], place)
    else if (kinds[i] != "any") print at(pages[i], place) offered(kinds[i])
}

function takers(    i, page, out) {
    for (i = 1; i <= count; i++) {
        if (whats[i] != "option" || kinds[i] == "none") continue
        page = pages[i] == "-" ? "" : pages[i]
        if (shorts[i] != "") out = out " " page ":" shorts[i]
        if (longs[i] != "") out = out " " page ":" longs[i]
    }
    return substr(out, 2)
}

NR == FNR { next }

/^@commands@$/ {
    subcommands("-", "")
    next
}

/^@options@$/ {
    for (i = 1; i <= count; i++) {
        if (whats[i] == "option") option(i)
        if (whats[i] == "argument") argument(i)
    }
    next
}

/ @takers@$/ {
    sub(/@takers@$/, "")
    print $0 takers()
    next
}

{ print }
