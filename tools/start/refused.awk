# Says which of the words of a refused command line it was about, if that is plain, and where help is. The commands and
# the options are those of help.txt. Called with the words as arguments.

function read_help(    file, line, words, at, are_options) {
    file = ENVIRON["texts"] "/help.txt"
    while ((getline line < file) > 0) {
        split(line, words, " ")
        if (line ~ /^Options/) are_options = 1
        if (line == "") are_options = 0
        if (are_options && line ~ /^  --/) read_option(words)
        if (line ~ /^== /) command = words[2]
        if (line ~ /^\{fast\} / && command) read_form(line)
    }
}

# What an option takes: a name, a number of a range, one of two words, or nothing.
function read_option(words) {
    takes[words[1]] = words[2]
    gsub(/,/, "", words[3])
    gsub(/,/, "", words[5])
    least[words[1]] = words[3]
    most[words[1]] = words[4] == "to" ? words[5] : words[3]
    if (words[4] == "or") most[words[1]] = words[5]
}

# The names and the options of a command: `{fast} COMMAND NAMES.. [NAME].. [--OPTION VALUE].. [--FLAG]..`.
function read_form(line,    words, at, many) {
    many = split(line, words, " ")
    counts[command] = 0
    for (at = 3; at <= many; at++) {
        if (words[at] ~ /^[A-Z]+$/) names[command, ++counts[command]] = words[at]
        if (words[at] ~ /^\[[A-Z]+\]$/) optional[command]++
        if (words[at] ~ /^\[--/) {
            if (sub(/\]$/, "", words[at])) is_flag[substr(words[at], 2)] = 1
            has[command, substr(words[at], 2)] = 1
        }
    }
}

# How many letters have to be put in, left out or changed to make one word of the other.
function distance(one, other,    rows, columns, row, column, best, before, above) {
    rows = length(one); columns = length(other)
    for (column = 0; column <= columns; column++) above[column] = column
    for (row = 1; row <= rows; row++) {
        before = above[0]; above[0] = row
        for (column = 1; column <= columns; column++) {
            best = before + (substr(one, row, 1) != substr(other, column, 1))
            before = above[column]
            if (above[column - 1] + 1 < best) best = above[column - 1] + 1
            if (before + 1 < best) best = before + 1
            above[column] = best
        }
    }
    return above[columns]
}

# Asks whether a word of a list that is near was meant.
function ask(word, list,    it, near, least_far, far) {
    least_far = 3
    for (it in list) {
        far = distance(word, it)
        if (far < least_far && far < length(it)) { least_far = far; near = it }
    }
    return near ? "; is \"" near "\" meant?" : ""
}

function is_number(word) { return word ~ /^[0-9]+$/ && length(word) <= 20 }

# What is wrong with an option and its value, if anything.
function option_fault(option, value, sign,    own, it, both) {
    if (!(option in takes)) {
        for (it in has) { split(it, both, SUBSEP); if (both[1] == used) own[both[2]] = 1 }
        return "\"" option "\" is no option" ask(option, own)
    }
    if (!((used, option) in has)) return used " has no option \"" option "\""
    if (option in given) return "\"" option "\" stands twice"
    given[option] = 1
    if (option in is_flag) return sign ? "\"" option "\" takes no value" : ""
    if (value == "") return "\"" option "\" has no " (takes[option] == "N" ? "number" : "name")
    if (takes[option] == "P" && value != least[option] && value != most[option])
        return option " takes " least[option] " or " most[option]
    if (takes[option] != "N") return ""
    if (!is_number(value)) return "\"" value "\" is no number, and " option " wants one"
    if (value + 0 < least[option] + 0 || value + 0 > most[option] + 0)
        return option " takes " least[option] " to " most[option]
    return ""
}

# Goes through the words behind the command's; gives the first fault that is plain.
function fault_of(count,    at, word, option, value, sign, found, is_name) {
    for (at = 2; at <= count; at++) {
        word = ARGV[at]
        if (word == "--" && !is_name) { is_name = 1; continue }
        if (is_name || word !~ /^-./) { held++; if (held > counts[used] + optional[used]) extra = extra ? extra : word; continue }
        sign = index(word, "=")
        value = sign ? substr(word, sign + 1) : (ARGV[at + 1] ~ /^--/ ? "" : ARGV[at + 1])
        option = sign ? substr(word, 1, sign - 1) : word
        found = option_fault(option, value, sign)
        if (found) return found
        if (!sign && !(option in is_flag)) at++
    }
    if (held < counts[used]) return used " lacks " names[used, held + 1]
    if (extra && names[used, counts[used]] != "MACHINES") return "\"" extra "\" is a word too many"
    if (used == "soak" && !is_number(ARGV[2])) return "\"" ARGV[2] "\" is no number, and soak wants one"
    return ""
}

BEGIN {
    read_help()
    count = ARGC - 1
    used = ARGV[1]
    if (!count) said = "no command was given"
    else if (!(used in counts)) said = "\"" used "\" is no command" ask(used, counts)
    else { said = fault_of(count); help = " help " used }
    # A program that fails may have the code that refused words have.
    if (!said && "--exit-code" in given) exit
    printf "fast: %s\"%s%s\" says more\n", said ? said (said ~ /\?$/ ? " " : "; ") : "", ENVIRON["called"],
        help ? help : " --help"
    exit
}
