# Makes the manual page of the configuration of what docs/FORMATS.md says of it: awk -v version=VERSION

function text(line) {
    gsub(/\\/, "\\e", line)
    gsub(/-/, "\\-", line)
    while (match(line, /`[^`]*`/)) {
        line = substr(line, 1, RSTART - 1) "\\fB" substr(line, RSTART + 1, RLENGTH - 2) "\\fP" substr(line, RSTART + RLENGTH)
    }
    return line ~ /^[.']/ ? "\\&" line : line
}

BEGIN {
    printf ".TH RXLINE.TOML 5 \"\" \"rxline %s\" \"Hazoxe\"\n", version
    print ".SH NAME\nrxline.toml \\- what rxline serves\n.SH DESCRIPTION"
}

/^## / { is_here = $0 == "## Configuration" }
!is_here || /^## / || /^\|---/ { next }

# A table's head, its rows, and what stands between.
/^\| (Key of|Cause) / {
    split($0, cell, / *\| */)
    is_of_keys = cell[2] ~ /^Key/
    head = is_of_keys ? cell[2] : "Causes of a refusal"
    sub(/^Key /, "Keys ", head)
    gsub(/`/, "", head)
    printf ".SH %s\n", toupper(text(head))
    next
}

/^\| / {
    split($0, cell, / *\| */)
    split(cell[2], part, /: /)
    if (is_of_keys) what = part[2] (part[2] == "" ? "" : ". ") cell[3] ". If missing: " cell[4] "."
    else what = cell[3] ". It is told as " cell[4] "."
    printf ".TP\n%s\n%s\n", text(part[1]), text(what)
    next
}

/^```/ {
    is_example = !is_example
    print is_example ? ".RS 4\n.nf" : ".fi\n.RE"
    next
}

is_example { print $0 == "" ? "" : text($0); next }
/^$/ { print ".PP"; next }
{ print text($0) }

END { print ".SH SEE ALSO\n.BR rxline (1),\n.BR rxline\\-check (1)" }
