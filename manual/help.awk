# Reads a text of help, and writes what is in it, a line each, its parts between tabs. The first part is the variable `page`: the name of
# a subcommand, or - for the program itself.
#
#   PAGE about TEXT                            its first line
#   PAGE usage TEXT                            the words of its command line
#   PAGE head TEXT                             the line above commands, arguments or options
#   PAGE command NAME HELP
#   PAGE argument VALUE HELP KIND              VALUE as it is printed: <DIR>, <TERM>...
#   PAGE option SHORT LONG VALUE HELP KIND     without what it lacks; KIND is none if it takes no value
#   PAGE text LINE                             any other line, as it is
#
# KIND says what can be offered for a value: file, folder, command, or any if nothing can. The words of its help determine it.

function kind_of(value, help) {
    if (value == "") return "none"
    if (value ~ /COMMAND/) return "command"
    if (help ~ /^The file /) return "file"
    if (help ~ /^The folder /) return "folder"
    return "any"
}

# Writes the entry that was read, if there is one.
function end_entry(    count, words, i, short, long, value) {
    if (entry == "") return
    if (section == "Commands") {
        print page, "command", entry, help
    } else if (section == "Arguments") {
        print page, "argument", entry, help, kind_of(entry, help)
    } else {
        count = split(entry, words, /,? /)
        for (i = 1; i <= count; i++) {
            if (words[i] ~ /^--/) long = words[i]
            else if (words[i] ~ /^-/) short = words[i]
            else value = words[i]
        }
        print page, "option", short, long, value, help, kind_of(value, help)
    }
    entry = help = ""
}

# Whether a line begins an entry of the section. Help below an entry is indented by ten.
function is_entry(line) {
    if (section == "Commands") return line ~ /^  [a-z]/
    if (section == "Arguments") return line ~ /^  [<[]/
    return line ~ /^  (    -)?-/
}

BEGIN { OFS = "\t" }

{
    gsub(/\t/, " ")
    sub(/ +$/, "")
}

/^[^ ]/ {
    end_entry()
    section = ""
}

NR == 1 {
    print page, "about", $0
    next
}

/^Usage: / {
    print page, "usage", substr($0, 8)
    next
}

/^(Commands|Arguments|Options):$/ {
    section = substr($0, 1, length($0) - 1)
    print page, "head", $0
    next
}

section != "" {
    if (is_entry($0)) {
        end_entry()
        sub(/^ +/, "")
        at = match($0, /  +/)
        entry = at ? substr($0, 1, at - 1) : $0
        help = at ? substr($0, at + RLENGTH) : ""
    } else if ($0 != "") {
        sub(/^ +/, "")
        help = help == "" ? $0 : help " " $0
    }
    next
}

{ print page, "text", $0 }

END { end_entry() }
