# What a script in bash answers to `--help` and to words that it doesn't take. To be sourced; what the script says about
# itself is the comment at its head, whose indented lines are its usage.

script=$(realpath "$0")

# Prints the comment at the head of the script.
about() {
    sed -n '2,/^[^#]/s/^# \{0,1\}//p' "$script"
}

# Ends the script, and says why and how it is used.
refuse() {
    { echo "${script##*/}: $1"; about | grep '^    '; } >&2
    exit 2
}

# Answers --help, and refuses words beyond so many, and those that begin as other options do.
take_at_most() {
    local word
    for word in "${@:2}"; do
        case $word in
            --help) about; exit ;;
            -*) refuse "it takes no $word" ;;
        esac
    done
    [ $(($# - 1)) -le "$1" ] || refuse "it takes no ${*:$1 + 2}"
}

# The same for words that are numbers.
take_numbers() {
    local word
    take_at_most "$@"
    for word in "${@:2}"; do
        [[ $word =~ ^[0-9]+$ ]] || refuse "$word is no number"
    done
}
