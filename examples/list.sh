#!/bin/sh
# Writes a list of fields, each given as NAME=VALUE; after `content` comes the content, after `trailer` the trailer fields:
#     sh list.sh [NAME=VALUE].. [content TEXT] [trailer [NAME=VALUE]..]
LC_ALL=C
write() {
    name=${2%%=*}
    value=${2#*=}
    printf '%s %d %d\n%s%s\n' "$1" "${#name}" "${#value}" "$name" "$value"
}
content=
echo 'hms-fields 1'
while [ $# -gt 0 ] && [ "$1" != content ] && [ "$1" != trailer ]; do
    write field "$1"
    shift
done
if [ "$1" = content ]; then
    content=$2
    shift 2
fi
printf 'content %d\n%s\n' "${#content}" "$content"
[ $# -eq 0 ] || shift
for field in "$@"; do
    write trailer "$field"
done
echo end
