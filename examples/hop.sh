#!/bin/sh
# Audits one hop, of the request in BEFORE to the one in AFTER, with STEPS as its script:
#     sh hop.sh BEFORE STEPS AFTER
script=$(mktemp)
trap 'rm "$script"' EXIT
[ -z "$2" ] || printf '%s\n' "$2" > "$script"
sh recording.sh at 1618884473 request "$1" script "$script" request "$3" | hms audit --conf conf.toml
