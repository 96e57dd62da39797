# shellcheck shell=sh
# What the scripts at the top share about a program of this repository: what it stands on, and whether it is proved and built.
# They source this file with two names set: top, the folder of the repository, and program, the program's name.

unset CDPATH

# Takes up a program by its name.
take_program() {
    # shellcheck disable=SC2154
    program=$1 built=$top/crates/$1/out/$1 stamp=$top/crates/$1/out/build.stamp
}

# shellcheck disable=SC2154
take_program "$program"

# The lines of crates.txt of the program and of all crates that it stands on, lowest first: by what each names, in whatever
# order the lines come, and without comments.
lines_that_count() {
    awk -v program="$program" '
        function visit(name, uses, last, at) {
            if (!(name in line) || name in seen) return
            seen[name]
            last = split(libraries[name], uses)
            for (at = 1; at <= last; at++) visit(uses[at])
            print line[name]
        }
        { sub(/#.*/, ""); gsub(/[ \t\r,]+/, " "); sub(/^ /, ""); sub(/ $/, "") }
        /./ {
            name = $1
            sub(/:.*/, "", name)
            line[name] = $0
            if (sub(/^[^:]*:/, "")) libraries[name] = $0
        }
        END { visit(program) }' "$top/crates.txt"
}

# The crates of such lines.
crates_of() {
    while read -r line; do
        printf '%s\n' "${line%%[ :]*}"
    done
}

# Finds each source of the crates that the first word names, after a link what it leads to; the other words say what find does.
find_sources() (
    cd "$top" || exit
    folders=''
    for each in $1; do
        for part in src specs proofs; do
            [ ! -d "crates/$each/$part" ] || folders="$folders crates/$each/$part"
        done
    done
    shift
    # shellcheck disable=SC2086
    [ -z "$folders" ] || find -L $folders ! -type d "$@"
)

# Each source of the crates that are named, with its size and its time, so that one that was changed, added, removed or put back
# shows.
sources_of() {
    find_sources "$1" -printf '%p %s %T@\n' | LC_ALL=C sort
}

# The checksum of all that the program is made of, wherever it lies and however old it is: the lines of crates.txt that count, and
# the path and the contents of each source.
sources_sum() (
    cd "$top" || exit
    lines=$(lines_that_count)
    {
        printf '%s\n' "$lines"
        find_sources "$(printf '%s\n' "$lines" | crates_of)" -print0 | LC_ALL=C sort -z | xargs -0 sha256sum --
    } | sha256sum | cut -d ' ' -f 1
)

# The identity of the kit whose rt is in PATH, without a call of rt: it stands in a file of the kit. Where that isn't found, the
# file rt itself is the identity: behind a script of one's own that is named rt, another kit shows only once that script is
# changed, as only a call would tell. Fails where there is no rt.
kit() {
    rt=$(command -v rt) && rt=$(readlink -f -- "$rt") || return 1
    if [ -f "${rt%/*/*}/KIT-ID" ]; then
        cat "${rt%/*/*}/KIT-ID"
    else
        find "$rt" -printf '%p %s %T@\n'
    fi
}

# What is said where there is no rt.
# shellcheck disable=SC2034
without_rt='there is no command rt: install the Rattle kit rattle-kit-13f, which README.md names, with its rt in PATH'

# How the caller builds the program: the script build as it is found from the caller's folder, with the program's name unless that is
# the name that it takes by itself.
build_command() {
    if [ "$(pwd -P)" = "$top" ]; then command=./build; else command=$top/build; fi
    if [ "$program" = cronrun ]; then printf '%s\n' "$command"; else printf '%s\n' "$command $program"; fi
}

# All that the proved program depends on, where the kit is $1.
state() {
    lines=$(lines_that_count)
    printf 'kit: %s\n%s\n' "$1" "$lines"
    sources_of "$(printf '%s\n' "$lines" | crates_of)"
}

program_file() {
    find "$built" -type f -perm -u+x -printf '%s %T@\n' 2>/dev/null
}

# Whether the program was built from what stands there now. Where no rt is in PATH, as in a job of cron, there is no other kit.
is_current() {
    [ -x "$built" ] && [ -f "$stamp" ] || return 1
    used=$(kit) || used=$(sed -n 's/^kit: //p' "$stamp")
    [ "$(state "$used"; program_file)" = "$(cat "$stamp")" ]
}

# Records that the program was built from the state $1.
record_built() {
    { { printf '%s\n' "$1" && program_file; } >"$stamp.new" && mv -f -- "$stamp.new" "$stamp"; } || {
        rm -f -- "$stamp.new"
        return 1
    }
}

# How many proofs rt may make side by side, where the caller has not said so: one for each processor, but no more than one for each
# 4 GB of the machine's memory, and at least one.
set_jobs() {
    case ${RT_JOBS:-} in
        '' | 0 | *[!0-9]*) ;;
        *) return 0 ;;
    esac
    processors=$(nproc 2>/dev/null) || processors=1
    RT_JOBS=$(awk -v jobs="$processors" '
        /^MemTotal:/ { most = int($2 * 1024 / 4e9) }
        END {
            if (jobs > most) jobs = most
            print (jobs < 1 ? 1 : jobs)
        }' /proc/meminfo) || RT_JOBS=1
    export RT_JOBS
}

# ---- a folder for temporary files, a command in the background, and others beside it, all gone when the script ends, also by a signal

room='' is_in_background=no beside=''

# The signals that end a script, by the numbers of Linux: HUP INT QUIT USR1 USR2 PIPE ALRM TERM XCPU XFSZ VTALRM PROF.
signals='1 2 3 10 12 13 14 15 24 25 26 27'

# Has a signal end the script, at whose end this is done.
trap_signals() {
    # shellcheck disable=SC2064
    trap "$1" EXIT
    for number in $signals; do
        # shellcheck disable=SC2064
        trap "exit $((128 + number))" "$number"
    done
}

make_room() {
    trap_signals clean_up
    room=$(mktemp -d 2>/dev/null) || return 1
    case $room in
        /*) ;;
        *) room=$PWD/$room ;;
    esac
}

# Runs a command in the background, since no shell heeds a signal while a command runs in front; its status is kept. A shell has
# words of its own for a command that was killed.
run_in_background() {
    is_in_background=yes
    "$@" &
    wait "$!" 2>/dev/null
    status=$?
    is_in_background=no
    return "$status"
}

# What a script does in the background becomes the command: one that is told to end also when the script is killed.
become() {
    ! setpriv --pdeathsig TERM true 2>/dev/null || set -- setpriv --pdeathsig TERM "$@"
    exec "$@"
}

# Told to end, rt ends what it started.
stop_background() {
    [ $is_in_background = no ] || { kill "$!" && wait "$!"; } 2>/dev/null
    for each in $beside; do
        # (one that has ended may have left its number to another process)
        ! grep -qs "^PPid:.$$\$" "/proc/$each/status" || kill "$each"
    done 2>/dev/null
    # shellcheck disable=SC2086
    [ -z "$beside" ] || wait $beside 2>/dev/null
}

# A second signal would cut it short.
clean_up() {
    # shellcheck disable=SC2086
    trap '' $signals
    stop_background
    [ -z "$room" ] || rm -rf -- "$room"
}
