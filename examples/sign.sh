#!/bin/sh
# Signs the message of standard input by the key of conf.toml, under LABEL and over COMPONENTS:
#     [table=LINES] sh sign.sh LABEL COMPONENTS [OPTION].. < MESSAGE
# LINES are further ones of the table `sign`; without --now the moment is 1618884473.
label=$1
components=$2
shift 2
case " $* " in
    *" --now "*) ;;
    *) set -- --now 1618884473 "$@" ;;
esac
exec 3<<END
$(cat conf.toml)
[sign]
label = "$label"
keyid = "test-shared-secret"
components-request = '$components'
components-response = '$components'
$table
END
exec hms sign --conf /dev/fd/3 "$@"
