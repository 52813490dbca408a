#!/bin/sh
# Runs each command once, with these redirections after its own, and writes its first word and its status, in one line; with
# status 4, 5 or 6 also how many bytes came, and always what came on standard error in other lines than `hms: ..`:
#     sh each.sh [REDIRECTION]..
folder=$(mktemp -d)
trap 'rm -r "$folder"' EXIT
sed '/^Signature/d' response.http > "$folder/response"
hms sign --conf sign.toml --now 1618884473 --nonce n < unsigned.http > "$folder/signed"
sh recording.sh at 1618884473 request "$folder/signed" > "$folder/stream"
while read -r name words; do
    status=0
    eval "hms $name $words $*" > "$folder/out" 2> "$folder/said" || status=$?
    bytes=$(($(wc -c < "$folder/out")))
    case $status:$bytes in
        [456]:*[1-9]*) bytes=" after $bytes bytes" ;;
        *) bytes= ;;
    esac
    printf '%s %s%s%s; ' "$name" "$status" "$bytes" "$(sed '/^hms: /d; s/^/, /' "$folder/said")"
done <<END
base '("date")' --conf conf.toml < signed.http
verify --conf conf.toml --now 1618884473 < signed.http
sign --conf sign.toml --now 1618884473 < unsigned.http
sign --conf sign.toml --now 1618884479 --request wishes.http --wanted wishes.http < "$folder/response"
rewrite --script haproxy.steps --label hook < hook_sent.http
explain --label hook --other hook_haproxy.http < hook_sent.http
audit --conf strict.toml < chain.rec
gateway --conf gateway.toml < "$folder/stream"
sample 7 1 < /dev/null
help verify < /dev/null
--help < /dev/null
--version < /dev/null
verify --now < /dev/null
END
echo
