#!/bin/sh
# Holds the words of ./play to the letter: the reason for every kind of line that can't be read, the warnings, the refused calls with
# their places, and how it is called. Each file is played, so what it writes is held to runlist too.
cd "$(dirname "$0")/.." || exit 1
test=play
. tests/lists.sh
header=ctx,service,a,b,c

# answers NUMBER WHAT: runlist refused the file played last with this number
answers() {
    printf '%s\r\n' "$1" | cmp -s - "$work/answer" || differs "$2: runlist does not answer $1"
}

# mistake LINE FORMAT REASON QUOTE: the file that printf makes of the format can't be read in that line, for that reason
mistake() {
    printf "$2" >"$work/file"
    plays "$work/file" 1
    answers "$((0 - 10 - $1))" "$2"
    {
        printf '%s\n' "line $1 can't be read: $3"
        [ -z "$4" ] || printf '    %s\n' "$4"
        [ "$1" -ne 1 ] || echo "line 1 must be the header ctx,service,a,b,c or ctx,service,a,b,c,d"
        echo "no call of the file is answered; docs/EXAMPLES.md has the usual mistakes"
    } | said "$2"
}

# call FORMAT REASON QUOTE: as line 3 under five fields; six: under six
call() {
    mistake 3 "$header\nT,tn_task_exit,,,\n$1\nT,tn_task_exit,,,\n" "$2" "$3"
}
six() {
    mistake 3 "$header,d\r\nT,tn_task_exit,,,,\r\n$1\r\n" "$2" "$3"
}

# ---- the line as a whole
mistake 1 '' "the file is empty" ""
mistake 1 '\n' "the line is empty" ""
mistake 1 "\n$header\n" "the line is empty" ""
call '' "the line is empty" ""
mistake 3 "$header\r\nT,tn_task_exit,,,\r\n\r\n" "the line is empty" ""
mistake 1 "\357\273\277$header\n" "starts with a byte order mark: save as UTF-8 without BOM" "[\\xEF\\xBB\\xBF$header]"
call '\357\273\277T,tn_task_exit,,,' "starts with a byte order mark: save as UTF-8 without BOM" '[\xEF\xBB\xBFT,tn_task_exit,,,]'
mistake 1 '\377\376c\000t\000' "starts with a byte order mark of UTF-16: save as UTF-8 without BOM" '[\xFF\xFEc\x00t\x00]'
mistake 1 '\376\377\000c\000t' "starts with a byte order mark of UTF-16: save as UTF-8 without BOM" '[\xFE\xFF\x00c\x00t]'
mistake 1 'c\000t\000' 'byte 2 is a NUL (\x00), which no text has: save as UTF-8 without BOM' '[c\x00t\x00]'
call 'T,tn_\000task\351_exit,,,' 'byte 6 is a NUL (\x00), which no text has: save as UTF-8 without BOM' '[T,tn_\x00task\xE9_exit,,,]'
mistake 1 "$header\rT,tn_task_exit,,,\r" "CR line ends: the whole file is one line; save it with LF or CRLF line ends" "[$header\\rT,tn_task_exit,,,\\r]"
mistake 1 "$header\r" "ends in CR without LF: a line ends in LF or CRLF" "[$header\\r]"
mistake 1 "$header\rT,tn_task_exit,,,\n" "byte 18 is a CR without LF: a CR alone ends no line" "[$header\\rT,tn_task_exit,,,]"
mistake 2 "$header\nT,tn_task_exit,,,\r" "ends in CR without LF: a line ends in LF or CRLF" '[T,tn_task_exit,,,\r]'
call 'T,tn_task_exit,,,\r\r' "ends in two CRs and LF: a line ends in LF or CRLF" '[T,tn_task_exit,,,\r]'
call 'T,tn_task\t\r_exit,,,' "byte 11 is a CR without LF: a CR alone ends no line" '[T,tn_task\t\r_exit,,,]'
call "$header" "the header again: only line 1 is a header" "[$header]"
six "$header,d" "the header again: only line 1 is a header" "[$header,d]"
call '# a note, with a comma' "a comment: a list has none, every line is a call" '[# a note, with a comma]'
call '  // a note' "a comment: a list has none, every line is a call" '[  // a note]'
mistake 1 'ctx;service;a;b;c\n' "semicolons for commas" '[ctx;service;a;b;c]'
call 'T;tn_sem_acquire;1;1,5;' "semicolons for commas" '[T;tn_sem_acquire;1;1,5;]'
mistake 1 'ctx\tservice\ta\tb\tc\n' "tabs for commas" '[ctx\tservice\ta\tb\tc]'
call 'T\ttn_task_exit\t\t\t' "tabs for commas" '[T\ttn_task_exit\t\t\t]'
call '"T,tn_task_exit,,,"' "the whole line stands in quotes" '["T,tn_task_exit,,,"]'

# ---- the header
mistake 1 'T,tn_task_exit,,,\n' "the header is missing: line 1 is a call" '[T,tn_task_exit,,,]'
mistake 1 ' i,nothing,,,\n' "the header is missing: line 1 is a call" '[ i,nothing,,,]'
mistake 1 'x,TN_TASK_EXIT\n' "the header is missing: line 1 is a call" '[x,TN_TASK_EXIT]'
mistake 1 'CTX,SERVICE,A,B,C\n' "field 1: [CTX] is in upper case: write ctx" '[CTX,SERVICE,A,B,C]'
mistake 1 'ctx, service,a,b,c\n' "field 2: [ service] has a space: write service" '[ctx, service,a,b,c]'
mistake 1 'ctx,service,a\t,b,c\n' 'field 3: [a\t] has a tab: write a' '[ctx,service,a\t,b,c]'
mistake 1 '"ctx","service","a","b","c"\n' 'field 1: ["ctx"] has quotes: write ctx' '["ctx","service","a","b","c"]'
mistake 1 'ctx,service,a,b,d\n' "field 5: [d] is wrong: write c" '[ctx,service,a,b,d]'
mistake 1 'ctx,service,a,b,c,\n' "field 6: [] is wrong: write d" '[ctx,service,a,b,c,]'
mistake 1 'ctx,service,a,b\n' "4 fields, a header has 5 or 6" '[ctx,service,a,b]'
mistake 1 'ctx,service,a,b,c,d,e\n' "7 fields, a header has 5 or 6" '[ctx,service,a,b,c,d,e]'
mistake 1 'hello\n' "1 field, a header has 5 or 6" '[hello]'

# ---- the fields of a call
call 'T' "1 field, this header needs 5" '[T]'
call 't,tn_task_exit,,,' "field 1 (ctx): [t] is in lower case: write T" '[t,tn_task_exit,,,]'
call 'i,tn_task_exit,,,' "field 1 (ctx): [i] is in lower case: write I" '[i,tn_task_exit,,,]'
call ',tn_task_exit,,,' "field 1 (ctx): [] is neither T nor I" '[,tn_task_exit,,,]'
call 'X,tn_task_exit,,,' "field 1 (ctx): [X] is neither T nor I" '[X,tn_task_exit,,,]'
call ' T,tn_task_exit,,,' "field 1 (ctx): [ T] is neither T nor I: it has a space" '[ T,tn_task_exit,,,]'
call 'T,tn_task_isuspend,1,,' "field 2 (service): no such service: [tn_task_isuspend]" '[T,tn_task_isuspend,1,,]'
call 'T,tn_task_isuspend,1' "field 2 (service): no such service: [tn_task_isuspend]" '[T,tn_task_isuspend,1]'
call 'T,,1,,' "field 2 (service): no such service: []" '[T,,1,,]'
# a service of the library that no list holds is unknown as any other name is, in both forms, and in its line
call 'T,ready_ticks,1,,' "field 2 (service): no such service: [ready_ticks]" '[T,ready_ticks,1,,]'
six 'T,ready_ticks,1,,,' "field 2 (service): no such service: [ready_ticks]" '[T,ready_ticks,1,,,]'
mistake 2 "$header\nT,ready_ticks,1,,,\n" "field 2 (service): no such service: [ready_ticks]" '[T,ready_ticks,1,,,]'
mistake 4 "$header,d\nT,tn_task_create,1,5,1,\nI,tn_tick_int_processing,,,,\nT,ready_ticks,1,,," "field 2 (service): no such service: [ready_ticks]" '[T,ready_ticks,1,,,]'
call 'T,TN_Task_exit,,,' "field 2 (service): [TN_Task_exit] is in upper case: write tn_task_exit" '[T,TN_Task_exit,,,]'
call 'T, tn_task_exit,,,' "field 2 (service): [ tn_task_exit] has a space: write tn_task_exit" '[T, tn_task_exit,,,]'
call 'T,"tn_task_exit",,,' 'field 2 (service): ["tn_task_exit"] has quotes: write tn_task_exit' '[T,"tn_task_exit",,,]'
call 'T,tn_task_\303\251xit,,,' 'field 2 (service): no such service: [tn_task_\xC3\xA9xit]: it has a byte that is not ASCII' '[T,tn_task_\xC3\xA9xit,,,]'
call 'T,tn_event_wait,1,1,0' "tn_event_wait takes 4 numbers: it needs the header $header,d and 6 fields in every line" '[T,tn_event_wait,1,1,0]'
call 'T,tn_event_wait,1,1,0,9' "tn_event_wait takes 4 numbers: it needs the header $header,d and 6 fields in every line" '[T,tn_event_wait,1,1,0,9]'
call 'T,tn_sem_signal,1,' "4 fields, this header needs 5" '[T,tn_sem_signal,1,]'
call 'T,tn_sem_acquire,1,65,535,' "6 fields, this header needs 5" '[T,tn_sem_acquire,1,65,535,]'
six 'T,tn_sem_signal,1,,' "5 fields, this header needs 6" '[T,tn_sem_signal,1,,]'
call 'T,tn_sem_acquire,1,65.535,' "field 4 (b): [65.535] is not plain digits" '[T,tn_sem_acquire,1,65.535,]'
call 'T,tn_task_sleep,-1,,' "field 3 (a): [-1] is not plain digits: it has a sign" '[T,tn_task_sleep,-1,,]'
call 'T,tn_task_sleep,5 ,,' "field 3 (a): [5 ] is not plain digits: it has a space" '[T,tn_task_sleep,5 ,,]'
call 'T,tn_task_sleep,\t5,,' 'field 3 (a): [\t5] is not plain digits: it has a tab' '[T,tn_task_sleep,\t5,,]'
call 'T,tn_task_sleep,"5",,' 'field 3 (a): ["5"] is not plain digits: it has quotes' '[T,tn_task_sleep,"5",,]'
call 'T,tn_task_sleep,65\302\240535,,' 'field 3 (a): [65\xC2\xA0535] is not plain digits: it has a no-break space' '[T,tn_task_sleep,65\xC2\xA0535,,]'
call 'T,tn_task_sleep,5\001,,' "field 3 (a): [5\\x01] is not plain digits: it has a byte that can't be printed" '[T,tn_task_sleep,5\x01,,]'
call 'T,tn_task_sleep,5\\x,,' 'field 3 (a): [5\\x] is not plain digits' '[T,tn_task_sleep,5\\x,,]'
call 'T,tn_task_sleep,007,,' "field 3 (a): [007] has a needless leading zero" '[T,tn_task_sleep,007,,]'
call 'T,tn_task_sleep,4294967296,,' "field 3 (a): [4294967296] is too large: the largest number is 4294967295; for the endless wait write forever" '[T,tn_task_sleep,4294967296,,]'
call 'T,tn_event_set,1,4294967296,' "field 4 (b): [4294967296] is too large: the largest number is 4294967295" '[T,tn_event_set,1,4294967296,]'
call 'T,tn_task_create,1,forever,1' "field 4 (b): [forever] stands for a timeout only, and tn_task_create takes its priority there" '[T,tn_task_create,1,forever,1]'
call 'T,tn_sem_acquire,forever,forever,' "field 3 (a): [forever] stands for a timeout only, and tn_sem_acquire takes its semaphore there" '[T,tn_sem_acquire,forever,forever,]'
six 'T,tn_event_wait,1,forever,0,forever' "field 4 (b): [forever] stands for a timeout only, and tn_event_wait takes its pattern there" '[T,tn_event_wait,1,forever,0,forever]'
call 'T,tn_task_sleep,Forever,,' "field 3 (a): [Forever] is not in lower case: write forever" '[T,tn_task_sleep,Forever,,]'
call 'T,tn_queue_send,1,forever,forever' "field 4 (b): [forever] stands for a timeout only, and tn_queue_send takes its element there" '[T,tn_queue_send,1,forever,forever]'
call 'T,tn_queue_receive,1,FOREVER,' "field 4 (b): [FOREVER] is not in lower case: write forever" '[T,tn_queue_receive,1,FOREVER,]'
call 'T,tn_queue_send,1,7,' "field 5 (c): [] is blank, and tn_queue_send takes a number there, its timeout" '[T,tn_queue_send,1,7,]'
call 'I,tn_queue_ireceive_polling,1,,' "field 2 (service): no such service: [tn_queue_ireceive_polling]" '[I,tn_queue_ireceive_polling,1,,]'
six 'T,tn_event_wait,1,1,0,FOREVER' "field 6 (d): [FOREVER] is not in lower case: write forever" '[T,tn_event_wait,1,1,0,FOREVER]'
call 'T,tn_task_suspend,FOREVER,,' "field 3 (a): [FOREVER] is not plain digits" '[T,tn_task_suspend,FOREVER,,]'
call 'T,tn_sem_acquire,1,forever ,' "field 4 (b): [forever ] has a space: write forever" '[T,tn_sem_acquire,1,forever ,]'
call 'T,tn_sem_acquire,1,\tForever,' 'field 4 (b): [\tForever] has a tab: write forever' '[T,tn_sem_acquire,1,\tForever,]'
call 'T,tn_sem_acquire,1,"forever",' 'field 4 (b): ["forever"] has quotes: write forever' '[T,tn_sem_acquire,1,"forever",]'
call 'T,tn_sem_acquire,1,foreve,' "field 4 (b): [foreve] is not plain digits" '[T,tn_sem_acquire,1,foreve,]'
call 'T,tn_sem_acquire,1,forever1,' "field 4 (b): [forever1] is not plain digits" '[T,tn_sem_acquire,1,forever1,]'
call 'T,tn_sem_acquire,1,,' "field 4 (b): [] is blank, and tn_sem_acquire takes a number there, its timeout" '[T,tn_sem_acquire,1,,]'
six 'T,tn_event_wait,1,1,0,' "field 6 (d): [] is blank, and tn_event_wait takes a number there, its timeout" '[T,tn_event_wait,1,1,0,]'
call 'T,tn_task_exit,0,,' "field 3 (a): [0] must be blank: tn_task_exit takes no number" '[T,tn_task_exit,0,,]'
call 'T,tn_sem_signal,1,2,' "field 4 (b): [2] must be blank: tn_sem_signal takes 1 number" '[T,tn_sem_signal,1,2,]'
call 'T,tn_task_exit,,,forever' "field 5 (c): [forever] must be blank: tn_task_exit takes no number" '[T,tn_task_exit,,,forever]'
six 'T,tn_task_sleep,forever,,,forever' "field 6 (d): [forever] must be blank: tn_task_sleep takes 1 number" '[T,tn_task_sleep,forever,,,forever]'
six 'T,tn_sem_create,1,0,1, ' "field 6 (d): [ ] must be blank, and has a space: tn_sem_create takes 3 numbers" '[T,tn_sem_create,1,0,1, ]'

# ---- what can't be printed is shown
call 'x\001\010\013\014\016\037\177\200\240\377~}! \\' "1 field, this header needs 5" '[x\x01\x08\x0B\x0C\x0E\x1F\x7F\x80\xA0\xFF~}! \\]'

# ---- long quotes are cut, and not within the sign for a byte
digits=1234567890
long=$digits$digits$digits$digits$digits
call "T,tn_task_sleep,$long$digits,," "field 3 (a): [$long$digits] is too large: the largest number is 4294967295; for the endless wait write forever" "[T,tn_task_sleep,$long$digits,,]"
call "T,tn_task_sleep,${long}123456789\\\\351x,," "field 3 (a): [${long}123456789\\\\ ..] (64 bytes) is not plain digits" "[T,tn_task_sleep,${long}123456789\\\\351x,,]"
call "T,tn_task_sleep,${long}123456789\351x,," "field 3 (a): [${long}123456789\\xE9 ..] (61 bytes) is not plain digits: it has a byte that is not ASCII" \
    "[T,tn_task_sleep,${long}123456789\\xE9x,,]"
call "x$long$long$long$long" "1 field, this header needs 5" "[x$long$long$long${long%0} ..] (201 bytes)"

# ---- warnings
endless="a timeout of 65535 was the endless wait on the 16-bit port; here it is a finite wait: for the endless one write forever"
# every service with 65535 in every field that it takes, in lines that end in CRLF but for the last: of the timeouts alone is warned
awk -f tools/services.awk crates/model/specs/Services.antt >"$work/services" || differs "the table of services can't be read"
awk -v header=$header,d '
    BEGIN { printf header }
    { printf "\r\n" $2 "," $1; for (i = 3; i <= 6; i++) printf "," (i <= NF ? 65535 : "") }
' "$work/services" >"$work/file"
plays "$work/file" 0
awk -v endless="$endless" '/ timeout/ { print "line " NR + 1 ": " endless }' "$work/services" >"$work/wanted"
[ "$(wc -l <"$work/wanted")" -ge 3 ] || differs "fewer than 3 services take a timeout"
grep 65535 "$work/words" | cmp -s - "$work/wanted" || differs "./play does not warn of 65535 in the timeouts, or of another"
# in a file that is refused too, before and after the line
printf '%s\nT,tn_task_sleep,65535,,\nT,tn_\nT,tn_task_sleep,165535,,\nI,tn_task_sleep,65535,,' $header >"$work/file"
plays "$work/file" 1
grep 65535 "$work/words" >"$work/is"
printf '%s\n' "line 2: $endless" "line 5: $endless" | cmp -s - "$work/is" || differs "./play does not warn of 65535 in a refused file"

# the word in every timeout, and 1 in every other field that a service takes: all is read, nothing is said of it, and digits get the same answer
awk -v header=$header,d '
    BEGIN { print header }
    { line = $2 "," $1; for (i = 3; i <= 6; i++) line = line "," ($i == "timeout" ? "forever" : i <= NF ? 1 : ""); print line }
' "$work/services" >"$work/file"
[ "$(grep -c forever "$work/file")" -ge 3 ] || differs "fewer than 3 services take the word"
sed s/forever/4294967295/ "$work/file" >"$work/digits"
plays "$work/digits" 0
cp "$work/answer" "$work/wanted"
plays "$work/file" 0
cmp -s "$work/answer" "$work/wanted" || differs "the word and its digits are answered otherwise"
grep -q '^line ' "$work/words" && differs "./play has words about the word in a timeout"

# clears: 17 bits and more, of 32; not 16, not another service, not what is no number or too large for one
printf '%s\n' $header T,tn_event_create,1,0,4294967295 T,tn_event_clear,1,65535, T,tn_event_clear,1,131071, I,tn_event_iclear,1,4294967293, T,tn_event_clear,1,4294967295, \
    T,tn_event_set,1,4294967293, T,tn_event_wait_polling,1,4294967295,0 T,tn_event_clear,1,4294901760, T,tn_event_clear,1,4294934527, T,tn_event_clear,1,2863311530, >"$work/file"
plays "$work/file" 0
keeps="TNKernel's own clear keeps the given bits instead"
said clears <<END
line 4: this clear takes out 17 of the flag's 32 bits and keeps 15; $keeps: if 131071 was written for it, write 4294836224 here
line 5: this clear takes out 31 of the flag's 32 bits and keeps 1; $keeps: if 4294967293 was written for it, write 2 here
line 6: this clear takes out all 32 bits of the flag; $keeps: if 4294967295 was written for it, leave this line out
line 10: this clear takes out 31 of the flag's 32 bits and keeps 1; $keeps: if 4294934527 was written for it, write 32768 here
END
printf '%s\r\n' $header,d T,tn_event_clear,1,4294967293,, T,tn_event_clear,1,8589934591,, >"$work/file"
plays "$work/file" 1
[ "$(sed -n 's/: this clear.*//p' "$work/words")" = "line 2" ] || differs "./play does not warn of a clear in a refused file"

# ---- refused calls
plays examples/round-robin.csv 0
[ -s "$work/words" ] && differs "./play has words about a list of which it has nothing to say"
plays examples/mistakes/refused-calls.csv 0
said refused-calls <<'END'
14 of 19 calls refused by the kernel:
    2 with -1 OVERFLOW: a count is at its top, or a task is suspended already: line 3 (call 2), line 20 (call 19)
    4 with -2 WCONTEXT: wrong context, nobody runs where a task is needed, or wrong state of the task: line 4 (call 3), line 5 (call 4), line 16 (call 15), line 18 (call 17)
    2 with -3 WSTATE: a dormant task suspended, or a task resumed that is not suspended: line 7 (call 6), line 8 (call 7)
    1 with -4 TIMEOUT: an empty semaphore or queue polled, a full queue sent to, or a flag whose bits do not meet the pattern: line 10 (call 9)
    3 with -5 WRONG_PARAM: a number out of range, or an existing object created: line 11 (call 10), line 12 (call 11), line 14 (call 13)
    2 with -9 NOEXS: no such object is created: line 13 (call 12), line 15 (call 14)
END
nobody="WCONTEXT: wrong context, nobody runs where a task is needed, or wrong state of the task"
printf '%s\nT,tn_task_exit,,,\n' $header >"$work/file"
plays "$work/file" 0
printf '%s\n' "1 of 1 call refused by the kernel:" "    1 with -2 $nobody: line 2 (call 1)" | said "one call"

# ---- the ends of the scale
for end in '' ,d; do
    printf '%s\n' "$header$end" >"$work/file"
    plays "$work/file" 0
    [ "$(wc -c <"$work/answer")" -eq 16 ] && [ ! -s "$work/words" ] || differs "the header $header$end alone is not answered with 16 bytes and no word"
done
awk -v header=$header 'BEGIN {
    print header
    for (i = 0; i < 7; i++) print "I,tn_tick_int_processing,,,"
    for (i = 0; i < 3629; i++) print "T,tn_task_exit,,,"
}' >"$work/full"
[ "$(wc -c <"$work/full")" -eq 65536 ] || differs "the list of 65,536 bytes has another size"
plays "$work/full" 0
printf '%s\n' "3629 of 3636 calls refused by the kernel:" \
    "    3629 with -2 $nobody: line 9 (call 8), line 10 (call 9), line 11 (call 10), line 12 (call 11), line 13 (call 12) and 3624 more" | said "the longest file"
{ cat "$work/full" && echo; } >"$work/long"
plays "$work/long" 1
answers -1 "a file of 65,537 bytes"
grep -Fqx "the file is longer than 65,536 bytes; no call of it is answered" "$work/words" || differs "./play does not say that a file is too long"

# ---- how play is called
(cd examples && ../play worked.csv) 2>/dev/null | cmp -s - examples/worked.answer || differs "./play does not work from another folder"
# hears HOW: what was written is the answer of this list, and the words are about its lines too
hears() {
    cmp -s "$work/played" examples/hold-until-key.answer && grep -q '^line 8: a timeout' "$work/words" || differs "./play does not read $1"
}
./play - <examples/hold-until-key.csv >"$work/played" 2>"$work/words"
hears "standard input"
cat examples/hold-until-key.csv | ./play - >"$work/played" 2>"$work/words"
hears "a pipe as standard input"
cat examples/hold-until-key.csv | ./play /dev/stdin >"$work/played" 2>"$work/words"
hears "a pipe by its name"
for help in --help -h; do
    ./play $help >"$work/played" 2>"$work/words"
    [ $? -eq 0 ] && [ ! -s "$work/words" ] || differs "./play $help does not end with status 0 and nothing on standard error"
    grep -Fqx "usage: ./play FILE" "$work/played" || differs "./play $help does not say how it is called"
done
# refused_call WORDS ARGS..: status 2, nothing written, and these words
refused_call() {
    words=$1
    shift
    ./play "$@" >"$work/played" 2>"$work/words"
    [ $? -eq 2 ] && [ ! -s "$work/played" ] || differs "./play $* does not end with status 2 and nothing written"
    grep -Fqx -e "$words" "$work/words" || differs "./play $* does not say: $words"
}
refused_call "usage: ./play FILE"
refused_call "usage: ./play FILE" examples/worked.csv examples/worked.csv
refused_call "play: there is no file $work/none" "$work/none"
refused_call "play: examples is not a file that can be read" examples
refused_call "play: there is no option --what and no file of this name; ./play --help says more" --what

finish
