#!/bin/sh
# Writes a recording of these items, in order. After the word `at` comes a moment, after another kind a file:
#     sh recording.sh at SECONDS request FILE [[at SECONDS] script FILE request FILE]..
text=$(mktemp)
echo 'hms-recording 1'
while [ $# -gt 1 ]; do
    if [ "$1" = at ]; then
        echo "at $2"
    else
        cat "$2" > "$text"
        echo "$1 $(($(wc -c < "$text")))"
        cat "$text"
        echo
    fi
    shift 2
done
echo end
rm "$text"
