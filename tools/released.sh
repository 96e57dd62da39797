# shellcheck shell=sh
# What the scripts share about the release in dist/, which tools/release makes: whether it is of the sources here, whether it runs on
# this machine, and what answers a call. They source this file after tools/program.sh.

# shellcheck disable=SC2154
release=$top/dist

# What dist/STATE says after a word and a colon.
of_release() {
    sed -n "s/^$1: //p" "$release/STATE" 2>/dev/null
}

# Whether the program of the release was made from the sources here.
is_of_release() {
    # shellcheck disable=SC2154
    [ -f "$release/STATE" ] && [ "$(sources_sum)" = "$(of_release "$program")" ]
}

# Whether the files of the release are whole. These checksums show a broken copy, and no forged one.
is_whole() {
    (cd "$release" && sha256sum -c SHA256SUMS) >/dev/null 2>&1
}

# Whether the processor has what a program for x86-64-v2 needs. Where nothing says so, only a call shows it; of another processor's
# program a shell would take the bytes for commands.
has_processor() {
    [ "$(uname -sm)" = 'Linux x86_64' ] || return 1
    flags=$(sed -n '/^flags[[:space:]]*:/{s/^[^:]*://p;q;}' /proc/cpuinfo 2>/dev/null)
    for flag in cx16 lahf_lm popcnt pni sse4_1 sse4_2 ssse3; do
        case "$flags " in
            *" $flag "* | ' ') ;;
            *) return 1 ;;
        esac
    done
}

# Whether the program of the release answers a call on this machine: it has no answer on another processor, without the C library that
# it needs, or where it is broken.
answers_one_call() {
    case $program in
        croncheck) said=$("$release/croncheck" --version </dev/null) wanted="croncheck $(of_release version),*" ;;
        *) said=$("$release/$program" match '* * * * *' 2000-01-01T00:00:00 </dev/null) wanted=true ;;
    esac
    # shellcheck disable=SC2254
    case $said in
        $wanted) ;;
        *) return 1 ;;
    esac
} 2>/dev/null

# The oldest version of the GNU C library that has all that the files call.
libc_of() {
    LC_ALL=C grep -aoh 'GLIBC_[0-9][0-9.]*' "$@" | sort -Vu | sed -n '$s/GLIBC_//p'
}

has_release() {
    [ -f "$release/STATE" ] && [ -x "$release/$program" ]
}

release_runs() {
    has_release && has_processor && answers_one_call
}

# Where the sources here are no longer those of the release, this says so: by how many commits, if git knows.
tell_difference() {
    ! is_of_release || return 0
    commits=$(git -C "$top" rev-list --count "$(of_release commit)..HEAD" -- crates crates.txt 2>/dev/null)
    case $commits in
        '' | 0) difference='differ from it' ;;
        1) difference='are 1 commit newer' ;;
        *) difference="are $commits commits newer" ;;
    esac
    printf '%s: this answer comes from release %s; the sources here %s; %s builds them\n' \
        "$program" "$(of_release version)" "$difference" "$(build_command)" >&2
}

tell_lack() {
    if has_release; then
        lack="the release in dist/ does not run here, or is broken; it needs $(of_release needs)"
    else
        lack='there is no release in dist/'
    fi
    printf '%s: %s\n' "$program" "$lack" >&2
}

# Becomes the program that answers the words of a call: the one that was proved here from these sources; else that of the release; else
# one that is not proved.
answer() {
    # shellcheck disable=SC2154
    ! is_current || exec "$built" "$@"
    if release_runs; then
        tell_difference
        exec "$release/$program" "$@"
    fi
    tell_lack
    exec "$top/tools/try" "$program" "$@"
}
