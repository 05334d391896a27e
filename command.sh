# What the commands ./list and ./move share: how a program is built the first time, run, and its failures said. A command sets `command`, its
# own name, `crate`, that of its program, and `here`, the folder that it stands in, has a function `usage`, and reads this file.
#
# A program reads standard input. Asked for its status it tells it to descriptor 3: 0 done, 1 refused, 2 not read, 3 not written. It ends with
# the exit status 0, whatever came.

say() { # MESSAGE
    printf '%s: %s\n' "$command" "$1" >&2
}

fail() { # MESSAGE
    say "$1"
    exit 2
}

# A file as it is named to the user: on one line, so control characters are quoted.
name() { # FILE
    case $1 in
    -) printf 'standard input' ;;
    *[[:cntrl:]]*) printf '%q' "$1" ;;
    *) printf '%s' "$1" ;;
    esac
}

is_open() { # DESCRIPTOR
    { true 9<&"$1"; } 2>/dev/null
}

show_help() {
    local why
    why=$(usage 2>&1 >&"$output") || fail "standard output: ${why##*: }"
    exit 0
}

misunderstood() { # MESSAGE
    say "$1"
    usage >&2
    exit 2
}

# Why FILE cannot be read, as far as that is seen before it is opened.
obstacle() { # FILE
    local at=$1
    [ "$1" != - ] || at=/dev/stdin
    if [ -d "$at" ]; then
        printf 'Is a directory'
    elif [ "$1" = - ] && ! read -r -n 0; then
        printf 'Bad file descriptor'
    fi
}

need_rt() {
    command -v rt >/dev/null || fail "the Rattle kit's command rt is not on the PATH: install the kit and put its bin/ there"
}

# Whether a file of the crates is newer than the program; what rt makes in a crate's out/ is none of theirs.
is_old() {
    [ ! -x "$program" ] || [ "$here/crates.txt" -nt "$program" ] ||
        [ -n "$(find "$here/crates" -mindepth 2 \( -name out -prune -o -newer "$program" -print -quit \))" ]
}

# Proves and builds the program where it is older than its source: one line with a dot for each crate that is proved. The log is in target/.
build() {
    is_old || return 0
    need_rt
    local log=$here/target/$command.log
    { mkdir -p "$here/target" && true >"$log"; } || exit 2
    printf '%s: proving and building the program, which is done once and takes some minutes ' "$command" >&2
    (trap - PIPE XFSZ && "$here/build" "$crate" 2>&1 </dev/null) | tee -- "$log" | while IFS= read -r line; do
        case $line in "logic=proved "*) printf . >&2 ;; esac
    done
    local built=$?
    printf '\n' >&2
    [ "$built" -eq 0 ] || fail "the program could not be built: see $log"
}

# Runs the program on FILE with arguments, by which it is asked for its status, and gives that. What the subshell tells is why FILE cannot be
# opened, or what the program says on standard error, and then its status.
run() { # FILE ARGUMENT...
    local file=$1 told ended said
    shift
    told=$(
        exec 2>&1
        [ "$file" = - ] || exec <"$file" || exit
        exec 3>&1 >&"$output" {output}>&-
        exec "$program" "$@"
    )
    ended=$?
    case $told in
    [0-3]) return "$told" ;;
    *$'\n'[0-3])
        said=${told%?}
        printf '%s' "${said/#"$command: standard input:"/"$command: $(name "$file"):"}" >&2
        return "${told: -1}"
        ;;
    '') say "$(name "$file"): the program ended with $ended and told nothing" ;;
    *) say "$(name "$file"): ${told##*: }" ;;
    esac
    return 2
}

# Ends with the exit status of a program's status: what could not be written counts as what could not be read.
end() { # STATUS
    exit "$(($1 < 2 ? $1 : 2))"
}

program=$here/target/bin/$crate
# A closed pipe and a limit on the size of files are errors to be said, and no reason to be ended.
trap '' PIPE XFSZ
# What is opened next would take the number of a descriptor that is closed. Standard input is opened so that it cannot be read.
is_open 2 || exec 2>/dev/null
is_open 0 || exec 0>/dev/null
is_open 1 || fail "standard output: Bad file descriptor"
exec {output}>&1
