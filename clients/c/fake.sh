#!/bin/sh
# Stands in the place of the programs, in the tests of the client. It answers the question of the
# opening by FAKE_FIRST, reads a line, answers FAKE_REPLY, and does FAKE_THEN. With FAKE_BEFORE it
# does that, and then is the program `tunes`.
# shellcheck disable=SC2034,SC2059 # the lines are read past; the answers are formats
if [ -n "${FAKE_BEFORE-}" ]; then
    eval "$FAKE_BEFORE"
    exec "$TUNES" "$@"
fi
[ -z "${FAKE_FIRST-}" ] || read -r line
printf "${FAKE_FIRST-}"
[ -z "${FAKE_FIRST-}" ] || read -r line
printf "${FAKE_REPLY-}"
eval "${FAKE_THEN-}"
