# shellcheck shell=bash
# Sourced by the commands. What a command tells of its use is the comment at its head.

# Says why on standard error, under the command's name, and ends with status 2.
die() {
    printf '%s: %s\n' "${0##*/}" "$*" >&2
    exit 2
}

can_print() {
    { true 3>&1; } 2>/dev/null || die 'standard output is closed'
}

tell_use() {
    sed -n -e '1d' -e '/^#/!q' -e 's/^# \{0,1\}//p' "$0"
}

# take_words MOST WORD..: on --help tells the use and ends with 0; dies of any other option, and of more words than MOST.
take_words() {
    local most=$1 word
    shift
    for word in "$@"; do
        case $word in
        -h | --help)
            can_print
            tell_use
            exit 0
            ;;
        -*) die "there is no option $word; --help tells the use" ;;
        esac
    done
    [ $# -le "$most" ] || die 'too many words; --help tells the use'
}
