#!/bin/sh
# Explains two records of one message for LABEL, and takes the steps of each list, 256 at a time, on its record. Writes the
# two normal messages, with their lines in order of their names:
#     sh normal.sh LABEL FIRST SECOND
folder=$(mktemp -d)
trap 'rm -r "$folder"' EXIT
hms explain --label "$1" --other "$3" < "$2" > "$folder/steps" || { cat "$folder/steps"; exit; }
read -r _ first _ < "$folder/steps"
sed -n "2,$((first + 1))p" "$folder/steps" > "$folder/first"
sed "1,$((first + 1))d" "$folder/steps" > "$folder/second"
cp "$2" "$folder/first.http"
cp "$3" "$folder/second.http"
for record in first second; do
    mkdir "$folder/$record.d"
    split -l 256 "$folder/$record" "$folder/$record.d/"
    for part in "$folder/$record.d"/*; do
        [ -e "$part" ] || continue
        hms rewrite --script "$part" --label "$1" < "$folder/$record.http" > "$folder/next" || cat "$folder/next"
        mv "$folder/next" "$folder/$record.http"
    done
    { head -n 1 "$folder/$record.http"; tail -n +2 "$folder/$record.http" | sort; } > "$folder/$record.sorted"
done
cmp "$folder/first.sorted" "$folder/second.sorted" && echo "alike: $(wc -c < "$folder/first.http") bytes"
