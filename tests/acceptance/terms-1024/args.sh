#!/bin/sh
# 1,024 terms, of which one is enough.
printf 'check\nx'
i=1
while [ "$i" -lt 1024 ]; do
    printf ' OR x'
    i=$((i + 1))
done
printf '\nx\n'
