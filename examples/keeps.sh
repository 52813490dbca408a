#!/bin/sh
# Signs the message of standard input as `s` over COMPONENTS, rewrites it by STEPS under that label, and writes a line
# with both verdicts, or why it isn't rewritten:
#     sh keeps.sh STEPS COMPONENTS [OPTION].. < MESSAGE
steps=$1
components=$2
shift 2
folder=$(mktemp -d)
sh sign.sh s "$components" > "$folder/signed"
if sh rewrite.sh "$steps" --label s --conf conf.toml "$@" < "$folder/signed" > "$folder/rewritten"; then
    for message in signed rewritten; do
        hms verify --conf conf.toml --now 1618884473 --label s < "$folder/$message"
    done | paste -sd ' '
else
    cat "$folder/rewritten"
fi
rm -r "$folder"
