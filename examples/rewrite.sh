#!/bin/sh
# Rewrites the message of standard input by STEPS, a line for each:
#     sh rewrite.sh STEPS [OPTION].. < MESSAGE
steps=$1
shift
exec 3<<END
$steps
END
exec hms rewrite --script /dev/fd/3 "$@"
