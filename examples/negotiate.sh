#!/bin/sh
# Signs the response of standard input by the key of conf.toml, as a request with these field lines asks:
#     [table=LINES] sh negotiate.sh [LINE].. < RESPONSE
# LINES are further ones of the table `sign`. The moment is 1618884473, and the request is GET / to the host h.
exec 3<<END
$(cat conf.toml)
[sign]
label = "s"
keyid = "test-shared-secret"
$table
END
# what is substituted loses the LF at its end, and gets it back here
exec 4<<END
$(printf 'GET / HTTP/1.1\r\nHost: h\r\n'; for line; do printf '%s\r\n' "$line"; done; printf '\r\n')
END
exec hms negotiate --conf /dev/fd/3 --now 1618884473 --request /dev/fd/4
