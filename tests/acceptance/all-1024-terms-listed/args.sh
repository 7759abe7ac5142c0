#!/bin/sh
# 1,024 different terms joined by AND, each of them chosen.
i=1000
terms=
while [ "$i" -lt 2024 ]; do
    terms="$terms t$i"
    i=$((i + 1))
done
set -- $terms
printf 'check\n%s' "$1"
shift
printf ' AND %s' "$@"
printf '\nt1000\n'
printf '%s\n' "$@"
