#!/bin/sh
# Turns a message into its list, that into a message, and this into a list, by the configuration CONF, or conf.toml. Writes
# whether both lists are the same, and the lines of `verify` that the second message has in place of others; or why there is
# no list or no message:
#     sh turned.sh MESSAGE [CONF]
conf=${2:-conf.toml}
folder=$(mktemp -d)
trap 'rm -r "$folder"' EXIT
turn() {
    hms lists --into "$1" --conf "$conf" < "$2" > "$3" || { echo "$message: $(cat "$3")"; exit; }
}
message=$1
turn fields "$message" "$folder/list"
turn message "$folder/list" "$folder/message"
turn fields "$folder/message" "$folder/again"
lists=same
cmp -s "$folder/list" "$folder/again" || lists=another
hms verify --conf "$conf" --now 1618884473 < "$message" > "$folder/verdicts"
lines=$(hms verify --conf "$conf" --now 1618884473 < "$folder/message" | diff "$folder/verdicts" - | sed -n 's/^> //p' | paste -sd ';')
echo "$message: $lists list, ${lines:-same verdicts}"
