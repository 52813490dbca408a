#!/bin/sh
# Writes a request with these field lines, the label `s` of which covers COMPONENTS; its tag isn't right. After `chunks`
# come the texts of chunks, and after `trailer` the lines of the trailer section:
#     sh record.sh COMPONENTS [LINE].. [chunks [TEXT].. [trailer [LINE]..]]
printf 'POST / HTTP/1.1\r\nHost: h\r\nSignature-Input: s=(%s)\r\nSignature: s=:AA==:\r\n' "$1"
shift
part=head
for text in "$@"; do
    case $part:$text in
        head:chunks) printf 'Transfer-Encoding: chunked\r\n\r\n'; part=chunks ;;
        chunks:trailer) printf '0\r\n'; part=trailer ;;
        chunks:*) printf '%x\r\n%s\r\n' "${#text}" "$text" ;;
        *) printf '%s\r\n' "$text" ;;
    esac
done
[ $part != chunks ] || printf '0\r\n'
printf '\r\n'
