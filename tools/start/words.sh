# Sourced by `fast`, in a checkout and as it is installed: help, and what is said of words that the program refuses.
# The caller says how it was called ($called), where this folder is ($texts), and what stands before the names of
# documents and examples ($docs, $examples).
export called texts docs examples

# Shows all commands, or the form, the meaning and the options of one.
show_help() {
    awk -v wanted="${1-}" '
        function put(line, name,    at) {
            while (at = index(line, "{" name "}"))
                line = substr(line, 1, at - 1) ENVIRON[name == "fast" ? "called" : name] \
                    substr(line, at + length(name) + 2)
            return line
        }
        /^Options/ { are_options = 1 }
        /^$/ { are_options = 0 }
        are_options && /^  --/ { options[++count] = $0 }
        /^== / { block = $2; next }
        block == wanted { text = text put(put(put($0, "fast"), "docs"), "examples") "\n" }
        END {
            sub(/\n+$/, "\n", text)
            printf "%s", text
            for (at = 1; wanted && at <= count; at++) {
                split(options[at], words, " ")
                if (index(text, "[" words[1] " ") || index(text, "[" words[1] "]")) rest = rest options[at] "\n"
            }
            if (rest) printf "\n%s", rest
            exit !text
        }' "$texts/help.txt"
}

# Answers the words that are none of the program's, and ends; else comes back.
answer_words() {
    case ${1-} in
        --version) show_version && exit ;;
        -h | --help | help) show_help "${2-}" && exit ;;
        *) return ;;
    esac
    echo "fast: \"${2-}\" is no command; \"$called --help\" has them all" >&2
    exit 10
}

# Runs the program in place of this shell. But where standard error is a terminal and the program refuses the words, a
# line there says which of them it was about.
start() {
    [ -t 2 ] || exec "$@"
    "$@"
    status=$?
    shift
    [ "$status" != 10 ] || awk -f "$texts/refused.awk" -- "$@" >&2
    exit "$status"
}
