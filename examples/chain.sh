#!/bin/sh
# Writes a recording of the request in FILE, and of what `rewrite` makes of it by each STEPS, a hop each:
#     sh chain.sh FILE STEPS..
folder=$(mktemp -d)
number=0
cat "$1" > "$folder/0"
items="at 1618884473 request $folder/0"
shift
for steps in "$@"; do
    script=$folder/steps$number
    [ -z "$steps" ] || printf '%s\n' "$steps" > "$script"
    touch "$script"
    hms rewrite --script "$script" < "$folder/$number" > "$folder/$((number + 1))"
    number=$((number + 1))
    items="$items script $script request $folder/$number"
done
sh recording.sh $items
rm -r "$folder"
