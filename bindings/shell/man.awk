# Generates getopts_shell(1) from README.md, without the sections on installation and proofs.
function escaped(text) {
    gsub(/\\/, "\\e", text)
    gsub(/-/, "\\-", text)
    gsub(/'/, "\\(aq", text)
    gsub(/’/, "\\(cq", text)
    return text ~ /^\./ ? "\\&" text : text
}
# Formats code in bold.
function said(text) {
    gsub(/\\\|/, "|", text)
    text = escaped(text)
    while (match(text, /`[^`]*`/))
        text = substr(text, 1, RSTART - 1) "\\fB" substr(text, RSTART + 1, RLENGTH - 2) "\\fP" substr(text, RSTART + RLENGTH)
    return text
}
# Switches to another kind of lines: text, code, a table, or an item.
function goes_on(to) {
    if (kind == "code" && to != "code")
        print ".fi\n.P"
    if (to == "code" && kind != "code")
        print ".P\n.nf"
    kind = to
}

NR == 1 {
    print ".TH GETOPTS_SHELL 1 \"\" \"getopts_shell\" \"User Commands\"\n.ad l\n.nh"
    print ".SH NAME\ngetopts_shell \\- options for shell scripts\n.SH SYNOPSIS"
    print "\\fBgetopts_shell\\fP [\\fIoption\\fP]... \\fINAME\\fP \\fITABLE\\fP [\\fIWORD\\fP]...\n.SH DESCRIPTION"
    next
}
/^## / { left_out = /Install|Building|What/ }
left_out { next }
/^## / { goes_on("text"); print ".SH \"" toupper(substr($0, 4)) "\""; next }
/^```/ { fenced = !fenced; goes_on(fenced ? "code" : "text"); next }
fenced || /^    / {
    if (blank && kind == "code")
        print ""
    blank = 0
    goes_on("code")
    print escaped(fenced ? $0 : substr($0, 5))
    next
}
/^\|/ {
    if (kind != "table") {
        goes_on("table")
        getline
        next
    }
    gsub(/\\\|/, "\001")
    split(substr($0, 3, length($0) - 4), cells, / \| /)
    gsub(/\001/, "\\|", cells[1])
    gsub(/\001/, "\\|", cells[2])
    print ".TP\n" said(cells[1]) "\n" said(cells[2])
    next
}
/^- / { goes_on("item"); print ".IP \\(bu 2\n" said(substr($0, 3)); next }
/^$/ { if (kind == "code") blank = 1; else print ".P"; next }
{ goes_on("text"); sub(/^  */, ""); print said($0) }
END { print ".SH SEE ALSO\n.BR getopt (1)" }
