# The lines of a file with every byte shown, from `od -An -v -tx1`: printable ASCII as it is, a tab as \t, a CR as \r, any other byte and
# the backslash as \xEF. Before each line stands + if an LF ends it, - if the file ends with it; an empty file is one empty line.
BEGIN {
    for (i = 0; i < 256; i++) {
        code = sprintf("%02x", i)
        shown[code] = i == 9 ? "\\t" : i == 13 ? "\\r" : i >= 32 && i <= 126 && i != 92 ? sprintf("%c", i) : "\\x" toupper(code)
    }
}
{
    piece = ""
    for (i = 1; i <= NF; i++)
        if ($i == "0a") {
            print "+" text piece
            ended = 1
            text = piece = ""
        } else piece = piece shown[$i]
    text = text piece
}
END { if (text != "" || !ended) print "-" text }
