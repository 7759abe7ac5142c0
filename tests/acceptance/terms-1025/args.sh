#!/bin/sh
# 1,025 terms: the last one begins behind 1,024 times 'x OR '.
printf 'check\nx'
i=1
while [ "$i" -lt 1025 ]; do
    printf ' OR x'
    i=$((i + 1))
done
printf '\nx\n'
