# The rows of the table of services, crates/model/specs/Services.antt, as `tn_sem_acquire T semaphore timeout`: name, context, and what
# each number is. A list holds these alone; the library's own services (own_service there) are in none, so they are left out. Ends with status
# 1 and says the line if a row of the table can't be taken apart, or there is none.
/(^|[^a-zA-Z_])a_service "/ {
    split($0, quoted, "\"")
    rest = quoted[3]
    if (quoted[2] !~ /^tn_[a-z_]+$/ || rest !~ /^ [TI] (\[\]|\(the_[a-z]+( ∷ the_[a-z]+)* ∷ \[\]\)) \(λ /) {
        print "services.awk: line " NR " of the table of services is not in the form of a row" >"/dev/stderr"
        wrong = 1
        next
    }
    row = quoted[2] " " substr(rest, 2, 1)
    sub(/ \(λ .*/, "", rest)
    while (match(rest, /the_[a-z]+/)) {
        row = row " " substr(rest, RSTART + 4, RLENGTH - 4)
        rest = substr(rest, RSTART + RLENGTH)
    }
    print row
    rows++
}
END {
    if (!rows) print "services.awk: the table of services has no row" >"/dev/stderr"
    exit wrong || !rows
}
