#!/bin/sh
# Times the reader of certificates: a million expansion lines, a million nodes and half a million lines of a
# refutation, each read from pieces of 4,096 bytes and printed again. Builds the driver of certificates' cases
# first, with `rt run`.
#
#     bench/measure/certificate.sh
set -eu
cd "$(dirname "$0")/../../crates/qv_check_cases"
rt run < /dev/null > /dev/null

timed() {
    echo "$1"
    printf '%s' "$2" > out/bench.in
    /usr/bin/time -f '%U seconds of the processor, %M kB at most' out/qv_check_cases < out/bench.in | tail -c 60
}

timed 'a million expansion lines' 'large-reader 4096 - 1000002 1*qbv-cert 2\n|1000000*i 3 0 2\n'
timed 'a million nodes' 'large-reader 4096 - 1000002 1*qbv-cert 2\n|1000000*n 12345 o bvadd : 1234 2345\n'
timed 'half a million lines of a refutation' \
    'large-reader 4096 - 500003 1*qbv-cert 2\nlrat\n|500000*123456 12 -3456 789 0 12345 23456 34567 45678 56789 0\n'
