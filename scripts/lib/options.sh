# shellcheck shell=bash
# For the scripts in scripts/: how they read their command line.
#
#     . "$(dirname "${BASH_SOURCE[0]}")/lib/options.sh"
#     take_options MOST "$@"
#
# -h and --help print the comment at the top of the script and end it with status 0. Any other word that begins with - is
# refused with status 2, and so are more than MOST words. A folder whose name begins with - is given as ./-NAME.
#
# A script with an option that has a value names it, and takes the other words from `words`:
#
#     takes=--target take_options MOST "$@"
#     set -- "${words[@]}"
#     target=${option[--target]:-none}

declare -A option=()
words=()

take_options() {
    local most=$1 name=${0##*/}
    shift
    while [ $# != 0 ]; do
        case $1 in
        -h | --help) sed -n '2,/^[^#]/s/^# \{0,1\}//p' "$0"; exit 0 ;;
        -*)
            [ "$1" = "${takes:-}" ] && [ $# -gt 1 ] || { echo "$name: unknown option $1; $name --help lists what it takes" >&2; exit 2; }
            option[$1]=$2
            shift
            ;;
        *) words+=("$1") ;;
        esac
        shift
    done
    [ ${#words[@]} -le "$most" ] || { echo "$name: ${#words[@]} words are too many; $name --help lists what it takes" >&2; exit 2; }
}
