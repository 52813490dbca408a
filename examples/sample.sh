#!/bin/sh
# Writes the request of `hms sample SEED ..` before it is signed: content of 100,000 bytes, which count up from SEED.
#     sh sample.sh SEED
seed=${1#"${1%%[!0]*}"} # a number that begins with 0 would be octal
block=$(for n in $(seq 0 255); do printf '\\%03o' $(((${seed:-0} + n) % 256)); done)
printf 'POST /sample HTTP/1.1\r\nHost: sample.example\r\nDate: Tue, 20 Apr 2021 02:07:55 GMT\r\n'
printf 'Transfer-Encoding: chunked\r\n\r\n186a0\r\n'
for n in $(seq 390); do printf "$block"; done
printf "$block" | head -c 160
printf '\r\n0\r\n\r\n'
