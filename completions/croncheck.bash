# shellcheck shell=bash
# Completes the words of croncheck in bash. tools/install_test holds it against croncheck --help.

# The zones of the machine's database.
_croncheck_zones() {
    sed -n 's/^[^#\t]*\t[^\t]*\t\([^\t]*\).*/\1/p' "${TZDIR:-/usr/share/zoneinfo}/zone.tab" 2>/dev/null
}

# The names of warnings that may be allowed.
_croncheck_warnings() {
    printf '%s\n' 'either-day uneven-step step-beyond range-down passed-over large-number whole-hour short-months gone never no-command
        looks-like-field user percent continued control-byte carriage-return empty-item other-name preset no-zone no-effect not-expanded no-mail gap twice same-job'
}

# The options of a command; without one those of check.
_croncheck_options() {
    local clock='--zone --from' span='-n --runs --until' output='--json --strict --same-job --allow' look='--width --color' kinds='--system --user --patterns --stdin-name --users --recursive --root'
    local settings='--alternative-weekdays --dom-and-dow --sloppy-ranges --seconds --year'
    case $1 in
        check) printf '%s\n' "$clock -f --format $output $kinds --language --for $settings $look -h --help" ;;
        show) printf '%s\n' "$clock $span --previous --often --show-zone $output $kinds --language --for $settings $look -h --help" ;;
        plan) printf '%s\n' "$clock $span --show-zone --commands --week --month --quiet --busy --together --ics --html --json --lasts --title --output --most-a-day $kinds $settings $look -h --help" ;;
        next) printf '%s\n' "$clock $span --previous --often --show-zone --json --language --for $settings $look -h --help" ;;
        describe) printf '%s\n' "--language --for $settings $look -h --help" ;;
        *) printf '%s\n' "$clock -f --format $output $kinds --language --for $settings $look -h --help -V --version" ;;
    esac
}

_croncheck() {
    local word=${COMP_WORDS[COMP_CWORD]} option=${COMP_WORDS[COMP_CWORD - 1]} words=
    COMPREPLY=()
    # A word --option=value is three words here.
    if [[ $word == = ]]; then
        word=
    elif [[ $option == = ]]; then
        option=${COMP_WORDS[COMP_CWORD - 2]}
    fi
    case $option in
        --zone | --show-zone) words="local UTC $(_croncheck_zones)" ;;
        --from | --until) words='now tomorrow' ;;
        -n | --runs | --previous | --stdin-name | --width | --quiet | --busy | --lasts | --title) ;;
        --most-a-day) words='all' ;;
        --output) return 0 ;;
        --root) compopt -o dirnames 2>/dev/null; return 0 ;;
        --language) words='en sv' ;;
        --for) words='kubernetes github quartz spring' ;;
        -f | --format) words='text gcc github sarif json' ;;
        --allow) words=$(_croncheck_warnings) ;;
        --color) words='auto always never' ;;
        --seconds | --year) words='optional required disallowed' ;;
        help) words='check show plan next describe' ;;
        *)
            if [[ $word == -* ]]; then
                words=$(_croncheck_options "${COMP_WORDS[1]}")
            elif ((COMP_CWORD == 1)); then
                words='check show plan next describe help'
                # Where none of these begins so, the word is a file, which bash completes by itself.
                mapfile -t COMPREPLY < <(compgen -W "$words" -- "$word")
                return 0
            else
                return 0
            fi
            ;;
    esac
    compopt +o bashdefault +o default 2>/dev/null
    mapfile -t COMPREPLY < <(compgen -W "$words" -- "$word")
}

complete -o bashdefault -o default -F _croncheck croncheck
