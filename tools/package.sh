# shellcheck shell=sh
# What the scripts share that write Debian packages. They source this file after tools/program.sh and tools/released.sh. A package is what
# stands below the folder $tree. $package and $version are its names, and the script has a function write_control.

# shellcheck disable=SC2154
source_package=zignhalm-cron
maintainer='Zignhalm maintainers <maintainers@users.noreply.zignhalm.example>'

# The time that all files of the package have: that of the commit, unless the caller says another.
set_time() {
    : "${SOURCE_DATE_EPOCH:=$(git -C "$top" log -1 --format=%ct 2>/dev/null)}"
    case $SOURCE_DATE_EPOCH in
        '' | *[!0-9]*) stop 'the time of the commit is not found: set SOURCE_DATE_EPOCH to a second since 1970' ;;
    esac
    export SOURCE_DATE_EPOCH
}

# The C library, from the version on that has all that the files call.
libc_needed() {
    oldest=$(libc_of "$@")
    printf '%s\n' "libc6${oldest:+ (>= $oldest)}"
}

# The kibibytes that the files take, each begun one counted, and one for each folder, on whatever file system.
size_of() {
    find "$1" -mindepth 1 ! -path "$1/DEBIAN*" -printf '%y %s\n' | awk '
        { sum += $1 == "f" ? int(($2 + 1023) / 1024) : 1 }
        END { print sum }'
}

# What docs/CHANGES.md says of this version, where it does: what stands below the heading that names it, up to the next such heading.
changes() {
    [ ! -f "$top/docs/CHANGES.md" ] || awk -v version="$version" '
        /^#+ / {
            match($0, /^#+/)
            if (is_in && RLENGTH <= depth) exit
            heading = $0
            gsub(/[^0-9A-Za-z.]/, " ", heading)
            if (!is_in && index(heading " ", " " version " ")) {
                is_in = 1
                depth = RLENGTH
                next
            }
        }
        is_in' "$top/docs/CHANGES.md"
}

# Paragraphs and items of a list, as the items of a Debian changelog.
items() {
    LC_ALL=C awk '
        function put(at, word, line) {
            if (!last) return
            line = "  *"
            for (at = 1; at <= last; at++) {
                if (length(line " " words[at]) > 78) {
                    print line
                    line = "   "
                }
                line = line " " words[at]
            }
            print line
            last = 0
        }
        /^[ \t]*$/ || /^ *[-*] / || /^#/ { put() }
        { sub(/^ *([-*]|#+) /, "") }
        {
            for (at = 1; at <= NF; at++) words[++last] = $at
        }
        END { put() }'
}

write_changelog() {
    written=$(changes | items)
    printf '%s (%s) stable; urgency=medium\n\n%s\n\n' "$source_package" "$version" "${written:-  * Version $version.}"
    printf ' -- %s  %s\n' "$maintainer" "$(LC_ALL=C date -u -R -d "@$SOURCE_DATE_EPOCH")"
}

write_data() {
    mkdir -p "$tree/DEBIAN" && write_control >"$tree/DEBIAN/control" &&
        (cd "$tree" && find usr -type f | LC_ALL=C sort | xargs md5sum) >"$tree/DEBIAN/md5sums"
}

# Writes the package into a file.
write_archive() {
    find "$tree" -type d -exec chmod a-s,u=rwx,go=rx {} + && find "$tree" -exec touch -h -d "@$SOURCE_DATE_EPOCH" {} + &&
        DPKG_DEB_THREADS_MAX=1 dpkg-deb -Zxz --root-owner-group --build "$tree" "$1" >/dev/null
}
