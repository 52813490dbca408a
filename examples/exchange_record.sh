#!/bin/bash
# Sends a request that hms signed to nginx, by curl, and keeps in FOLDER what went both ways, as the files exchange_*:
#     bash exchange_record.sh FOLDER
# It was run once, with Debian 12's nginx, curl and socat. nginx serves a file, and knows nothing of signatures.
set -e
here=$PWD
mkdir -p "$1/orders"
cd "$1"
printf '{"order": 1024, "state": "paid"}' > orders/1024.json

# the request, and the lines of it that curl has to send
now=$(date +%s)
{
    printf 'GET /orders/1024.json HTTP/1.1\r\nHost: shop.example\r\nWant-Content-Digest: sha-512=3, sha-256=10\r\n'
    printf 'Accept-Signature: answer=("@status" "content-type" "content-digest" "@method";req "@target-uri";req '
    printf '"signature";req;key="ask");created;expires;keyid="server";tag="orders"\r\n\r\n'
} | hms sign --conf "$here/asking.toml" --now "$now" --nonce order-1024-1 > asked.http
sed '1d; s/\r$//; /^$/d' asked.http > lines

cat > nginx.conf <<CONF
daemon off;
error_log $PWD/nginx.log;
pid $PWD/nginx.pid;
events {}
http {
    types { application/json json; }
    access_log off;
    client_body_temp_path $PWD/temp1;
    proxy_temp_path $PWD/temp2;
    fastcgi_temp_path $PWD/temp3;
    uwsgi_temp_path $PWD/temp4;
    scgi_temp_path $PWD/temp5;
    server {
        listen 127.0.0.1:9080;
        root $PWD;
    }
}
CONF
trap 'kill $(jobs -p) 2> /dev/null' EXIT
nginx -c "$PWD/nginx.conf" 2> nginx.err &
socat -r exchange_request.http -R exchange_response.http TCP-LISTEN:8080,bind=127.0.0.1,reuseaddr TCP:127.0.0.1:9080 &
until (: > /dev/tcp/127.0.0.1/9080) 2> /dev/null; do sleep 0.1; done
sleep 0.5
curl -s -o content -H @lines http://127.0.0.1:8080/orders/1024.json
