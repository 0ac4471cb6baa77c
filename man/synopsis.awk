# Reads the lines of a synopsis as they are shown, and prints the command lines that each stands for, one a line, as a shell reads them: each part
# in brackets is there or not, of parts with a bar between each is taken in turn, and what has dots after it comes once or twice. Two things differ:
# `--dbpath dir` is always there, since without it the system's own database would be meant, and of the selections (-v selections='-f --file..')
# only the first comes with other parts.

BEGIN {
    sample["dir"] = "\"$database\""
    sample["number"] = sample["argument"] = "1"
    sample["format"] = "'%{NAME}'"
    sample["file"] = "nosuch.rpm"
    sample["pattern"] = "'*'"
    count_of_selections = split(selections, selection, " ")
}

# Ends a part: what was read of it is its last alternative.
function end_part(   k, many, one) {
    if (unit == "" && alternatives == 0) return
    alternative[++alternatives] = unit
    parts++
    choices[parts] = 0
    if (is_optional && unit !~ /^--dbpath/) choice[parts, ++choices[parts]] = ""
    for (k = 1; k <= alternatives; k++) {
        one = alternative[k]
        if (sub(/ ?\.\.\.$/, "", one)) {
            many = split(one, piece, " ")
            choice[parts, ++choices[parts]] = one " " piece[many]
        }
        choice[parts, ++choices[parts]] = one
    }
    unit = ""
    alternatives = 0
}

# A command line with the samples in place of what the synopsis names.
function shown(line,   k, n, piece) {
    n = split(line, piece, " ")
    line = piece[1]
    for (k = 2; k <= n; k++) line = line " " (piece[k] in sample ? sample[piece[k]] : piece[k])
    return line
}

function print_line(line,   k) {
    sample["selection"] = selection[1]
    print shown(line)
    if (line ~ / selection/ && line !~ /--noindex|--after|--qf| -l/)
        for (k = 2; k <= count_of_selections; k++) {
            sample["selection"] = selection[k]
            print shown(line)
        }
}

function expand(part, line,   k) {
    if (part > parts) {
        print_line(line)
        return
    }
    for (k = 1; k <= choices[part]; k++) expand(part + 1, line (choice[part, k] == "" ? "" : " " choice[part, k]))
}

NF {
    line = $0
    gsub(/[][|]/, " & ", line)
    n = split(line, token, " ")
    parts = alternatives = is_optional = 0
    unit = ""
    for (i = 2; i <= n; i++) {
        if (token[i] == "[" || token[i] == "]") {
            end_part()
            is_optional = token[i] == "["
        } else if (token[i] == "|") {
            alternative[++alternatives] = unit
            unit = ""
        } else {
            if (!is_optional && token[i] ~ /^-/ && unit != "") end_part()
            unit = unit (unit == "" ? "" : " ") token[i]
        }
    }
    end_part()
    expand(1, token[1])
}
