#!/bin/sh
# Writes what TCP carried in the packets that tcpdump prints by -x, in their order (IPv4):
#     tcpdump -nr FILE -x 'tcp dst port 8080' | sh payload.sh
awk '
    function number(from, count,    sum) {
        for (sum = 0; count > 0; count--) sum = 16 * sum + index("0123456789abcdef", substr(hex, from++, 1)) - 1
        return sum
    }
    function put(    ip, tcp) {
        if (hex == "") return
        ip = 8 * number(2, 1)
        tcp = 8 * number(ip + 25, 1)
        print substr(hex, ip + tcp + 1, 2 * number(5, 4) - ip - tcp)
        hex = ""
    }
    /^\t0x/ { sub(/^[^:]*: */, ""); gsub(/ /, ""); hex = hex $0; next }
    { put() }
    END { put() }' | xxd -r -p
