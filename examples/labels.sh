#!/bin/sh
# A line for each file: its labels, each with `ok` or with the number of the rule that fails.
for file in "$@"; do
    printf '%-24s' "$file"
    hms verify --conf conf.toml --now 1618884473 < "$file" |
        awk '{printf " %s=%s", $1, $3 ? $3 : $2} END {print ""}'
done
