# Converts perf's dump of samples to one line for each sample.
#
#     awk -f samples.awk samples.dump.txt
#     awk -v absent=period,addr -f samples.awk recording.dump.txt
#
#     TIME CPU PID/TID PERIOD ADDR IP: CHAIN
#
# ADDR, IP and the addresses of CHAIN are hexadecimal, beginning with 0x, without zeros after that (0 is 0x0); the other
# numbers are decimal. CHAIN is a word for each number of the call chain, the innermost call first, and nothing if it is
# empty. Numbers from -4095 on (as a u64) are not addresses, but state whose addresses follow: -128 is the word `kernel`
# and -512 the word `user`, and the others stay numbers.
#
# `absent` names fields that the event's sample_type lacks, whose word is `-`: perf prints an address of 0 and the
# attribute's own period for these. A line of a sample or of a chain that has another form ends the run with the status
# 1. The rest of perf's dump of a sample (its registers, stack, costs, pages) is left out.

function fail() {
    print "samples.awk: line " NR ": " $0 > "/dev/stderr"
    failed = 1
    exit 1
}

function number(text) {
    if (text !~ /^[0-9]+$/) fail()
    return text
}

function hex(text) {
    sub(/^0x/, "", text)
    if (text !~ /^[0-9a-f]+$/) fail()
    sub(/^0+/, "", text)
    return "0x" (text == "" ? "0" : text)
}

function entry(text) {
    if (text == "ffffffffffffff80") return "kernel"
    if (text == "fffffffffffffe00") return "user"
    return hex(text)
}

function unless_absent(name, word) {
    return index("," absent ",", "," name ",") ? "-" : word
}

function finish() {
    if (wanted != 0) fail()
    if (line != "") print line
    line = ""
}

# CPU TIME OFFSET [SIZE]: PERF_RECORD_SAMPLE(IP, MISC): PID/TID: IP period: PERIOD addr: ADDR
/: PERF_RECORD_SAMPLE\(/ {
    finish()
    if (NF != 12 || $9 != "period:" || $11 != "addr:" || $7 !~ /^[0-9]+\/[0-9]+:$/) fail()
    line = number($2) " " number($1) " " substr($7, 1, length($7) - 1) " " unless_absent("period", number($10))
    line = line " " unless_absent("addr", hex($12)) " " hex($8) ":"
}

# ... FP chain: nr:COUNT
/^\.\.\. FP chain: / {
    if ($4 !~ /^nr:[0-9]+$/ || line !~ /:$/) fail()
    wanted = substr($4, 4) + 0
    found = 0
}

# ..... PLACE: NUMBER
/^\.\.\.\.\. / {
    if ($2 != found ":" || !wanted) fail()
    line = line " " entry($3)
    found++
    wanted--
}

END {
    if (failed) exit 1
    finish()
}
