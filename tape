#!/bin/sh
# A tape as text, and the tape of a text: ./tape list TAPE, ./tape write TEXT
set -eu
usage='usage: ./tape list [TAPE]
    prints a tape as text, with the answer of each step behind a colon
usage: ./tape write [TEXT]
    writes the tape of a text to standard output
Without a file, or with -, standard input is read. README.md has the text form.
status: 0 done; 1 the tape or the text is refused; 2 it could not be read or the result not written'
case ${1-} in
--help)
    echo "$usage"
    exit
    ;;
list | write)
    [ $# -gt 2 ] || exec "$(dirname "$(readlink -f "$0")")/tools/on-file" "${2--}" texts "$1"
    echo "./tape $1 takes one file" >&2
    ;;
*) echo "./tape lists or writes" >&2 ;;
esac
echo "$usage" >&2
exit 2
