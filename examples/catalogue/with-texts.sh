#!/bin/sh
# Prints a catalogue, followed by a [[text]] table for each licence of its rules whose text is found.
#
#   with-texts.sh CATALOGUE [FOLDER..]
#
# It looks for a file ID.txt in the folders, then in LICENSES at the top of this tree, then in /usr/share/common-licenses, which Debian has.
# A folder that doesn't exist is skipped. Standard error lists the ids without a text. A licence that has a [[text]] keeps it.
#
# One text is used for the ids of a GNU licence with and without -only and -or-later. The LGPL 3.0 needs the GPL 3.0 too, whose text
# follows its own. BSD and Artistic of common-licenses aren't used: the first names a holder, and the second is an older version.
#
# The catalogue must have each key on a separate line.
set -eu
LC_ALL=C
export LC_ALL

here=$(unset CDPATH; cd -- "$(dirname -- "$0")" && pwd)
catalogue=${1:?the catalogue to print}
shift

# The arguments become the catalogue and the files.
folders=$#
set -- "$@" "$here/../../LICENSES"
while [ "$folders" -ge 0 ]; do
    folder=$1
    shift
    for file in "$folder"/*.txt; do
        [ ! -f "$file" ] || set -- "$@" "$file"
    done
    folders=$((folders - 1))
done

exec awk '
# The id in a line KEY = "..", or nothing.
function value(line, key) {
    if (line !~ "^[ \t]*" key "[ \t]*=[ \t]*[\"\047]")
        return ""
    sub("^[ \t]*" key "[ \t]*=[ \t]*", "", line)
    line = substr(line, 2)
    sub(/["\047].*/, "", line)
    return line
}

# Notes an id of a rule, once.
function need(id) {
    if (id != "" && !(tolower(id) in needed)) {
        needed[tolower(id)] = 1
        ids[++count] = id
    }
}

# The text of a file, as a string of TOML has it; nothing if there is no file.
function text_of(file,    line, text, written, at, c) {
    if (file != "" && !(file in texts)) {
        text = ""
        while ((getline line <file) > 0) {
            written = ""
            for (at = 1; at <= length(line); at++) {
                c = substr(line, at, 1)
                written = written (c in escaped ? escaped[c] : c)
            }
            text = text written "\n"
        }
        close(file)
        texts[file] = text
    }
    return texts[file]
}

# The text for an id, or nothing.
function found(id,    text, base) {
    id = tolower(id)
    base = id
    if (base ~ /^(agpl|gpl|lgpl|gfdl)-/)
        sub(/-(only|or-later)$/, "", base)
    text = text_of(files[id])
    if (text == "" && base ~ /^(agpl|gpl|lgpl|gfdl)-[0-9.]+$/) {
        text = text_of(files[base])
        if (text == "")
            text = text_of(files[base "-only"])
        if (text == "")
            text = text_of(files[base "-or-later"])
    }
    if (text == "" && base in common) {
        text = text_of(folder common[base])
        if (base == "lgpl-3.0" && text != "")
            text = text "\n" text_of(folder common["gpl-3.0"])
    }
    return text
}

BEGIN {
    for (code = 1; code < 32; code++)
        escaped[sprintf("%c", code)] = sprintf("\\u%04X", code)
    escaped[sprintf("%c", 127)] = "\\u007F"
    escaped["\""] = "\\\""
    escaped["\\"] = "\\\\"

    folder = "/usr/share/common-licenses/"
    common["apache-2.0"] = "Apache-2.0"
    common["cc0-1.0"] = "CC0-1.0"
    common["mpl-1.1"] = "MPL-1.1"
    common["mpl-2.0"] = "MPL-2.0"
    common["gpl-1.0"] = "GPL-1"
    common["gpl-2.0"] = "GPL-2"
    common["gpl-3.0"] = "GPL-3"
    common["lgpl-2.0"] = "LGPL-2"
    common["lgpl-2.1"] = "LGPL-2.1"
    common["lgpl-3.0"] = "LGPL-3"
    common["gfdl-1.2"] = "GFDL-1.2"
    common["gfdl-1.3"] = "GFDL-1.3"

    for (at = ARGC - 1; at > 1; at--) {
        name = ARGV[at]
        sub(/.*\//, "", name)
        sub(/\.txt$/, "", name)
        files[tolower(name)] = ARGV[at]
    }

    while ((got = (getline line <ARGV[1])) > 0) {
        print line
        had[tolower(value(line, "licence"))] = 1
        term = value(line, "term")
        words = split(term, word)
        if (words == 1 || words == 3 && word[2] == "WITH") {
            sub(/\+$/, "", word[1])
            need(word[1])
            if (words == 3)
                need(word[3])
        }
    }
    if (got < 0) {
        print "this can\047t be read: " ARGV[1] | "cat 1>&2"
        close("cat 1>&2")
        exit 1
    }
    for (at = 1; at <= count; at++) {
        if (tolower(ids[at]) in had)
            continue
        text = found(ids[at])
        if (text == "")
            print "no text: " ids[at] | "cat 1>&2"
        else
            printf "\n[[text]]\nlicence = \"%s\"\nbody = \"\"\"\n%s\"\"\"\n", ids[at], text
    }
    exit 0
}' "$catalogue" "$@"
