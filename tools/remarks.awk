# What may be meant otherwise in the lines of a list, though each of them can be read: a timeout that was endless on the 16-bit port, and
# a clear that looks like TNKernel's own. Input: the table of services as services.awk writes it, then the lines as shown.awk shows them.
FNR == NR {
    for (i = 3; i <= NF; i++) kind[$1, i] = $i
    next
}
{
    text = substr($0, 2)
    if (substr($0, 1, 1) == "+") sub(/\\r$/, "", text)
    count = split(text, f, ",")
    for (i = 3; i <= count; i++) {
        if (kind[f[2], i] == "timeout" && f[i] == "65535")
            print "line " FNR ": a timeout of 65535 was the endless wait on the 16-bit port; here it is a finite wait: for the endless one write forever"
        if (kind[f[2], i] == "pattern" && f[2] ~ /^tn_event_i?clear$/ && f[i] ~ /^[1-9][0-9]*$/ && f[i] <= 4294967295) clear(f[i], bits(f[i]))
    }
}

# TNKernel's own clear keeps few bits less than all, so most bits of its pattern are set
function clear(pattern, set,    kept) {
    if (set <= 16) return
    kept = 4294967295 - pattern
    print "line " FNR ": this clear takes out " (kept ? set " of the flag\047s 32 bits and keeps " 32 - set : "all 32 bits of the flag") "; TNKernel\047s own clear keeps the given bits instead: " \
        (kept ? sprintf("if %s was written for it, write %.0f here", pattern, kept) : "if " pattern " was written for it, leave this line out")
}

function bits(n,    set) {
    for (set = 0; n > 0; n = int(n / 2)) set += n % 2
    return set
}
