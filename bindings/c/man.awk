# Generates getopts(3) from getopts.h: the first comment becomes the description, and each declaration is followed by the
# comment above it.
function escaped(line) {
    gsub(/\\/, "\\e", line)
    gsub(/-/, "\\-", line)
    gsub(/'/, "\\(aq", line)
    return line ~ /^\./ ? "\\&" line : line
}
# The declaration of a function, which may only be broken between parameters.
function call(line) {
    gsub(/ /, "\\ ", line)
    gsub(/,\\ /, ", ", line)
    return ".ti -4\n\\fB" line "\\fP\n.br"
}
# A line of a type: bold except for its comment.
function member(line) {
    line = escaped(line)
    sub(/\/\*.*/, "\\fP&\\fB", line)
    return "\\fB" line "\\fP"
}
# A line of a comment: indented text is printed unchanged, names are bold, and a dash begins a list item.
function said(line,    starts) {
    starts = as_is ? ".fi\n" : ""
    if (line ~ /^    / || (as_is && line == "")) {
        starts = as_is ? "" : ".nf\n"
        as_is = 1
        return starts escaped(line)
    }
    as_is = 0
    if (line == "")
        return starts ".P"
    if (sub(/^- /, "", line))
        starts = starts ".IP \\(bu 2\n"
    sub(/^  */, "", line)
    line = escaped(line)
    gsub(/GETOPTS_[A-Z_]*[A-Z]|getopts?_[a-z_]*[a-z]|`[^`]*`/, "\\fB&\\fP", line)
    gsub(/`/, "", line)
    return starts line
}

/^#define GETOPTS_VERSION "/ { split($0, version, "\"") }
/^#ifdef __cplusplus|^#if defined __GNUC__/, /^#endif/ { next }
/^#(ifndef|include|endif)|^#define GETOPTS_H$|^GETOPTS_FREED_BY/ { next }
/^\/\*/ { comment = 1; sub(/^\/\*/, " *") }
comment {
    comment = !sub(/ *\*\/$/, "")
    sub(/^ \* ?/, "")
    text = text said($0) "\n"
    next
}
/^$/ && text code != "" {
    body = body ".P\n" (code ? code ".RS 4\n" text ".RE" : text) "\n"
    text = code = ""
}
/^[a-z].*\(.*;$/ {
    calls = calls call($0) "\n"
    code = ".RS 4\n" call($0) "\n.RE\n"
    next
}
/./ { code = (code == "" ? ".nf\n" : substr(code, 1, length(code) - 4)) member($0) "\n.fi\n" }
END {
    print ".TH GETOPTS 3 \"\" \"getopts " version[2] "\" \"Library Functions Manual\"\n.ad l\n.nh"
    print ".SH NAME\ngetopts \\- parse command\\-line options from a table"
    print ".SH SYNOPSIS\n.B #include <getopts.h>\n.P\n.RS 4\n" calls ".RE\n.SH DESCRIPTION"
    print body ".SH SEE ALSO\n.BR getopt_long (3)"
}
