#!/bin/bash
# Sends a request that hms signed over HTTP/2 to nghttpd, nginx, HAProxy and nghttpx, the last three with an HTTP/1.1
# server behind them that answers it, and keeps in FOLDER what clients and servers log, as the files h2_*:
#     bash fields_record.sh FOLDER
# It was run once, with Debian 12's nghttp2-client, nghttp2-server, nghttp2-proxy, nginx, haproxy, curl, openssl, python3.
set -e
here=$PWD
mkdir -p "$1"
cd "$1"

# what is sent: a signed request, and a signed answer to it
hms sign --conf "$here/sign.toml" --now 1618884473 --nonce h2 < "$here/unsigned.http" > h2_sent.http
{ echo 'scheme = "http"'; cat "$here/sign.toml"; } > plain.toml
hms sign --conf plain.toml --now 1618884473 --nonce h2 < "$here/unsigned.http" > plain.http
printf 'HTTP/1.1 200 OK\r\nContent-Type: application/json\r\nContent-Length: 14\r\n\r\n{"seen": true}' |
    hms sign --conf "$here/sign.toml" --now 1618884473 --nonce h2 --request h2_sent.http > h2_answer.http
tail -c 32 h2_sent.http > content

# a server that keeps the request that came to its port, and sends the answer
cat > server.py <<'END'
import socketserver
import sys


class Receiver(socketserver.StreamRequestHandler):
    def handle(self):
        head, length = b"", 0
        while (line := self.rfile.readline()) not in (b"", b"\r\n"):
            head += line
            if line.lower().startswith(b"content-length:"):
                length = int(line.split(b":")[1])
        with open(sys.argv[2], "wb") as file:
            file.write(head + line + self.rfile.read(length))
        with open("h2_answer.http", "rb") as file:
            self.wfile.write(file.read())


socketserver.TCPServer.allow_reuse_address = True
socketserver.TCPServer(("127.0.0.1", int(sys.argv[1])), Receiver).serve_forever()
END
cat > nginx.conf <<END
daemon off;
error_log $PWD/nginx.log debug;
pid $PWD/nginx.pid;
events {}
http {
    log_format lists escape=json '{"fields":[[":method","\$request_method"],[":scheme","\$scheme"],'
        '[":authority","\$http_host"],[":path","\$request_uri"],["content-type","\$content_type"],'
        '["content-digest","\$http_content_digest"],["signature-input","\$http_signature_input"],'
        '["signature","\$http_signature"]],"content":"\$request_body"}';
    access_log $PWD/h2_nginx.json lists;
    client_body_temp_path $PWD/temp1;
    proxy_temp_path $PWD/temp2;
    fastcgi_temp_path $PWD/temp3;
    uwsgi_temp_path $PWD/temp4;
    scgi_temp_path $PWD/temp5;
    server {
        listen 127.0.0.1:8444 ssl http2;
        ssl_certificate $PWD/cert.pem;
        ssl_certificate_key $PWD/key.pem;
        location / {
            proxy_pass http://127.0.0.1:9444;
            proxy_http_version 1.1;
            proxy_set_header Host \$http_host;
        }
    }
}
END
cat > haproxy.cfg <<END
defaults
    mode http
    timeout client 5s
    timeout connect 5s
    timeout server 5s
frontend front
    bind 127.0.0.1:8445 ssl crt $PWD/both.pem alpn h2
    option http-buffer-request
    http-request set-var(txn.method) method
    http-request set-var(txn.scheme) ssl_fc,iif(https,http)
    http-request set-var(txn.path) pathq
    http-request set-var(txn.lines) req.hdrs
    http-request set-var(txn.content) req.body
    log stdout len 65535 format raw local0
    log-format "request %[var(txn.method),hex] %[var(txn.scheme),hex] %[var(txn.path),hex] %[var(txn.lines),hex] %[var(txn.content),hex]"
    default_backend back
backend back
    server server 127.0.0.1:9445
END
openssl req -x509 -newkey rsa:2048 -nodes -keyout key.pem -out cert.pem -days 2 -subj /CN=shop.example 2> openssl.log
cat key.pem cert.pem > both.pem

trap 'kill $(jobs -p)' EXIT
for name in nginx haproxy nghttpx; do
    python3 server.py "$(case $name in nginx) echo 9444 ;; haproxy) echo 9445 ;; *) echo 9446 ;; esac)" "h2_$name.http" &
done
nghttpd -v --echo-upload 8443 key.pem cert.pem > h2_nghttpd.log &
nghttpd --no-tls --echo-upload --trailer='x-sum: 5' 8080 > nghttpd.log &
nginx -c "$PWD/nginx.conf" 2> nginx.err &
haproxy -f haproxy.cfg > haproxy.log 2> haproxy.err &
nghttpx -f127.0.0.1,8446 -b127.0.0.1,9446 --conf=/dev/null --errorlog-file=nghttpx.err key.pem cert.pem &
for port in 8443 8080 8444 8445 8446 9444 9445 9446; do
    until (: > "/dev/tcp/127.0.0.1/$port") 2> /dev/null; do sleep 0.1; done
done

# the field lines of a message as options of the client, which makes the length itself
options() {
    sed -n '3,/^\r$/{s/\r$//; /^$/d; /^[Cc]ontent-[Ll]ength:/d; s/^/-H\n/; p}' "$1" > options
    mapfile -t fields < options
}
options h2_sent.http
for server in nghttpd:8443 nginx:8444 haproxy:8445 nghttpx:8446; do
    nghttp -v -n --har="client_${server%:*}.har" "${fields[@]}" -H ':authority: shop.example' -d content \
        "https://127.0.0.1:${server#*:}/hooks/orders?from=7" > "client_${server%:*}.log"
done
mv client_nghttpx.log h2_nghttp.log
mv client_nghttpx.har h2.har
nghttp -v -n --no-content-length --trailer='x-sum: 5' -H ':authority: shop.example' -d content \
    "http://127.0.0.1:8080/hooks/orders?from=7" > h2_trailers.log
options plain.http
curl -s --http2-prior-knowledge --trace h2_curl.trace -o answer "${fields[@]}" -H 'Host: shop.example' \
    --data-binary @content 'http://127.0.0.1:8080/hooks/orders?from=7'
sleep 1
grep -E 'http2 (output )?header: ' nginx.log > h2_nginx.log
grep '^request ' haproxy.log > h2_haproxy.log
