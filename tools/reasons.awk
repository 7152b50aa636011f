# Why a line of a list can't be read: the first cause, in words, or nothing for a line that can be read. The proved reader decides which
# lines can; tests/reasons.sh holds this program to it. What is wrong with a line as a whole comes first, then its fields from the left.
#
# Input: the table of services as services.awk writes it, then the lines of a list as shown.awk shows them.
#   -v line=N       writes the reason of line N and, in a second line, the line itself, both quoted
#   -v as=header    each line is tried as line 1, and its number is written, with a reason, if it has one; so with as=five and as=six
#                   as a call under that header. With open=1 each is tried as if the file ended with it
BEGIN {
    five = "ctx,service,a,b,c"
    six = five ",d"
    split(six, word, ",")
    most = "4294967295"
    endless = "forever"
}
FNR == NR {
    known[$1] = 1
    takes[$1] = NF - 2
    for (i = 3; i <= NF; i++) kind[$1, i] = $i
    next
}
{
    at = FNR
    unended = open || substr($0, 1, 1) == "-"
    text = substr($0, 2)
    if (!unended) sub(/\\r$/, "", text)
}
as != "" {
    why = reason(text, as == "header" ? 1 : 2, unended, as == "six")
    if (why != "") print at " " why
    next
}
at == 1 { wide = text == six }
at == line {
    print reason(text, at, unended, wide)
    print quote(text, 200)
}

# ---- a line: s without its line end, line n of its file; unended: the file ends with it; wide: its header has six fields
function reason(s, n, unended, wide,    why) {
    why = whole(s, n, unended)
    if (why == "") why = n == 1 ? header(s) : call(s, wide)
    return why
}

# the line as a whole
function whole(s, n, unended,    at) {
    if (s == "") return n == 1 && unended ? "the file is empty" : "the line is empty"
    if (s ~ /^\\xEF\\xBB\\xBF/) return "starts with a byte order mark: save as UTF-8 without BOM"
    if (s ~ /^(\\xFF\\xFE|\\xFE\\xFF)/) return "starts with a byte order mark of UTF-16: save as UTF-8 without BOM"
    if (at = index(s, "\\x00")) return "byte " bytes(substr(s, 1, at)) " is a NUL (\\x00), which no text has: save as UTF-8 without BOM"
    if (at = index(s, "\\r")) return loneCr(s, n, unended, at)
    if (n > 1 && (s == five || s == six)) return "the header again: only line 1 is a header"
    if (s ~ /^ *(#|\/\/)/) return "a comment: a list has none, every line is a call"
    if (s ~ /^[^,]*;/) return "semicolons for commas"
    if (s ~ /\\t/ && s !~ /,/) return "tabs for commas"
    if (s ~ /^"[^"]*,[^"]*"$/) return "the whole line stands in quotes"
    return ""
}

# a CR that no LF follows, the first one, at this place
function loneCr(s, n, unended, at,    last) {
    last = at + 1 == length(s)
    if (n == 1 && unended && !last) return "CR line ends: the whole file is one line; save it with LF or CRLF line ends"
    if (last) return "ends in " (unended ? "CR without LF" : "two CRs and LF") ": a line ends in LF or CRLF"
    return "byte " bytes(substr(s, 1, at)) " is a CR without LF: a CR alone ends no line"
}

function header(s,    f, count, i) {
    if (s == five || s == six) return ""
    count = split(s, f, ",")
    if (bare(f[1]) ~ /^[TtIi]$/ || tolower(bare(f[2])) in known) return "the header is missing: line 1 is a call"
    if (count > 1)
        for (i = 1; i <= count && i <= 6; i++)
            if (f[i] != word[i]) return "field " i ": " quote(f[i]) wrongWord(f[i], word[i])
    return fields(count, "a header has 5 or 6")
}

function call(s, wide,    f, count, needs, name, i, why) {
    needs = wide ? 6 : 5
    count = split(s, f, ",")
    if (count == 1) return fields(count, "this header needs " needs)
    if ((why = context(f[1])) != "") return "field 1 (ctx): " why
    name = f[2]
    if ((why = service(name)) != "") return "field 2 (service): " why
    if (takes[name] + 2 > needs) return name " takes " takes[name] " numbers: it needs the header " six " and 6 fields in every line"
    if (count != needs) return fields(count, "this header needs " needs)
    for (i = 3; i <= needs; i++) {
        why = i - 2 <= takes[name] ? number(f[i], name, kind[name, i]) : blank(f[i], name)
        if (why != "") return "field " i " (" word[i] "): " why
    }
    return ""
}

function fields(count, needed) {
    return count (count == 1 ? " field, " : " fields, ") needed
}

# ---- a field
function context(f) {
    if (f == "T" || f == "I") return ""
    if (f ~ /^[ti]$/) return quote(f) " is in lower case: write " toupper(f)
    return quote(f) " is neither T nor I" colon(f)
}

function service(f) {
    if (f in known) return ""
    if (tolower(bare(f)) in known) return quote(f) wrongWord(f, tolower(bare(f)))
    return "no such service: " quote(f) colon(f)
}

# a field that the service takes
function number(f, name, what,    timeout) {
    timeout = what == "timeout"
    if (f == "") return "[] is blank, and " name " takes a number there, its " what
    if (f == endless) return timeout ? "" : quote(f) " stands for a timeout only, and " name " takes its " what " there"
    if (timeout && tolower(bare(f)) == endless) return quote(f) (tolower(f) == endless ? " is not in lower case: write " endless : wrongWord(f, endless))
    if (f !~ /^[0-9]+$/) return quote(f) " is not plain digits" colon(f)
    if (f ~ /^0./) return quote(f) " has a needless leading zero"
    if (length(f) > length(most) || length(f) == length(most) && (f "") > most) return quote(f) " is too large: the largest number is " most (timeout ? "; for the endless wait write " endless : "")
    return ""
}

# a field that it does not take
function blank(f, name) {
    if (f == "") return ""
    return quote(f) " must be blank" (oddity(f) == "" ? "" : ", and has " oddity(f)) ": " name " takes " (takes[name] ? takes[name] : "no") " number" (takes[name] > 1 ? "s" : "")
}

# ---- words about a field
function wrongWord(f, right) {
    if (tolower(f) == right) return " is in upper case: write " right
    return (oddity(f) == "" ? " is wrong" : " has " oddity(f)) ": write " right
}

function colon(f) {
    return oddity(f) == "" ? "" : ": it has " oddity(f)
}

# what is easily overlooked in it
function oddity(f) {
    if (f ~ /\\t/) return "a tab"
    if (f ~ /\\xC2\\xA0/) return "a no-break space"
    if (f ~ / /) return "a space"
    if (f ~ /["\047]/) return "quotes"
    if (f ~ /^[-+]/) return "a sign"
    if (f ~ /\\x[89A-F]/) return "a byte that is not ASCII"
    if (f ~ /\\x[^5]/) return "a byte that can\047t be printed"
    return ""
}

# without them
function bare(f) {
    gsub(/ |["\047]|\\t|\\xC2\\xA0/, "", f)
    return f
}

# ---- quotes
# how many bytes a shown text stands for
function bytes(s) {
    gsub(/\\x..|\\./, "x", s)
    return length(s)
}

# in brackets, with the backslash doubled, and cut if it is long
function quote(s, room,    out, n, at, c) {
    if (!room) room = 60
    for (at = 1; at <= length(s); at += length(c)) {
        c = substr(s, at, 1) != "\\" ? substr(s, at, 1) : substr(s, at + 1, 1) == "x" ? substr(s, at, 4) : substr(s, at, 2)
        if (++n > room) return "[" out " ..] (" bytes(s) " bytes)"
        out = out (c == "\\x5C" ? "\\\\" : c)
    }
    return "[" out "]"
}
