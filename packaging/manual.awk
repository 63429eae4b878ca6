# Makes a manual page of what `rxline --help` says, or that of a command: awk -v name=NAME -v version=VERSION -v others='NAME ..'

function text(line) {
    gsub(/\\/, "\\e", line)
    gsub(/-/, "\\-", line)
    return line ~ /^[.']/ ? "\\&" line : line
}

function verbatim(on) {
    if (on != is_verbatim) print on ? ".RS 4\n.nf" : ".fi\n.RE"
    is_verbatim = on
}

# The first line tells what it is for.
NR == 1 {
    printf ".TH %s 1 \"\" \"rxline %s\" \"Hazoxe\"\n", toupper(text(name)), version
    what = tolower(substr($0, 1, 1)) substr($0, 2)
    sub(/[:.].*/, "", what)
    printf ".SH NAME\n%s \\- %s\n", text(name), text(what)
    about = $0 ~ /\.$/ ? $0 : $0 "."
    next
}

/^Usage: / {
    printf ".SH SYNOPSIS\n.B rxline\n%s\n.SH DESCRIPTION\n%s\n", text(substr($0, length("Usage: rxline") + 2)), text(about)
    next
}

# A table: what is meant, two spaces at least, and what it does.
/^(Commands|Arguments|Options):$/ {
    in_table = 1
    printf ".SH %s\n", toupper(substr($0, 1, length($0) - 1))
    next
}

in_table && /^ / {
    sub(/^ +/, "")
    at = match($0, /  +/)
    printf ".TP\n.B %s\n%s\n", text(substr($0, 1, at - 1)), text(substr($0, at + RLENGTH))
    next
}

# What stands behind the tables.
/^$/ {
    is_apart = in_notes
    in_table = 0
    next
}

{
    if (!in_notes) print ".SH NOTES"
    in_notes = 1
    verbatim(/^  /)
    if (is_apart) print is_verbatim ? "" : ".PP"
    is_apart = 0
    sub(/^  /, "")
    print text($0)
}

END {
    verbatim(0)
    print ".SH SEE ALSO"
    count = split(others, other, " ")
    for (i = 1; i <= count; i++) printf ".BR %s (1)%s\n", text(other[i]), i < count ? "," : ""
}
