#!/usr/bin/env bash
# Moves a stored drawing to the new form or to the old one; `./move --help` says how. The first run proves and builds the program.
#
# The program target/bin/mover takes the form's name, and is asked for its status by a second argument.
set -uo pipefail

usage() {
    cat <<'END'
usage: move new <FILE
       move old <FILE

Reads a stored drawing of either form from standard input, and writes the same drawing in the form
that is named to standard output. One that has that form already keeps its bytes. Of a drawing that
is refused nothing is written, and `refused` and the number are said on standard error.

Exit status: 0 the drawing was moved; 1 it was refused; 2 something could not be read or written, or
the command was not understood.
END
}

self=$(readlink -f -- "$0")
here=${self%/*} command=move crate=mover
. "$here/command.sh"

case ${1-} in
--help) show_help ;;
new | old) ;;
'') misunderstood "the form to move to is new or old" ;;
*) misunderstood "$(name "$1") is no form" ;;
esac
[ $# -eq 1 ] || misunderstood "$(name "$2") is one word too many"

why=$(obstacle -)
[ -z "$why" ] || fail "standard input: $why"
build
run - "$1" status
end $?
