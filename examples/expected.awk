# Converts what perf printed to recording.expected: a line for each COMM, MMAP, MMAP2, FORK, EXIT and NAMESPACES record.
#
#     perf script --show-task-events --show-mmap-events --show-namespace-events .. | awk -f expected.awk
#
#     comm PID TID NAME
#     mmap PID TID ADDR LEN PGOFF NAME
#     mmap2 PID TID ADDR LEN PGOFF MAJ:MIN INO GENERATION PROT NAME
#     fork PID TID PPID PTID
#     exit PID TID PPID PTID
#     namespaces PID TID DEV:INODE,DEV:INODE,...
#
# A NAME extends to the end of its line. Numbers are decimal or hexadecimal as perf prints them, but a hexadecimal one
# always begins with 0x, without zeros after that (0 is 0x0), and an id that perf prints as -1 is 4294967295. PROT is `r`,
# `w` and `x`, or `-` instead of each, and then `s` (shared) if bit 0 of the record's flags is set, else `p` (private). A
# line with one of the six names and another form ends the run with the status 1, and so does one of an MMAP2 record with
# a build id. Other lines are left out.

function fail() {
    print "expected.awk: line " NR ": " $0 > "/dev/stderr"
    failed = 1
    exit 1
}

function id(text) {
    if (text == "-1") return "4294967295"
    if (text !~ /^[0-9]+$/) fail()
    return text
}

# PID/TID, as two words.
function ids(text,    part) {
    if (split(text, part, "/") != 2) fail()
    return id(part[1]) " " id(part[2])
}

function number(text) {
    if (text !~ /^[0-9]+$/) fail()
    return text
}

function hex(text) {
    sub(/^0x/, "", text)
    if (text !~ /^[0-9a-f]+$/) fail()
    sub(/^0+/, "", text)
    return "0x" (text == "" ? "0" : text)
}

# The text after its first `count` words.
function text_after(text, count,    k) {
    for (k = 0; k < count; k++) if (!sub(/^[^ ]+ /, "", text)) fail()
    return text
}

# [ADDR(LEN), as two words.
function range(text,    part) {
    if (text !~ /^\[0x[0-9a-f]+\(0x[0-9a-f]+\)$/) fail()
    split(substr(text, 2, length(text) - 2), part, "(")
    return hex(part[1]) " " hex(part[2])
}

# The text without its ending.
function without(text, ending) {
    if (substr(text, length(text) - length(ending) + 1) != ending) fail()
    return substr(text, 1, length(text) - length(ending))
}

# The lines of a NAMESPACES record after its first: [0/net: DEV/INODE, 1/uts: DEV/INODE, ..]
wanted > 0 {
    text = $0
    gsub(/[][,\t ]+/, " ", text)
    count = split(text, word, " ")
    for (k = 1; k < count; k += 2) {
        if (word[k] !~ ("^" found "/[a-z]+:$")) fail()
        split(word[k + 1], part, "/")
        line = line (found ? "," : " ") number(part[1]) ":" hex(part[2])
        found++
    }
    if (found > wanted) fail()
    if (found == wanted) {
        print line
        wanted = 0
    }
    next
}

{
    at = index($0, "PERF_RECORD_")
    if (!at) next
    text = substr($0, at + 12)
    count = split(text, word, " ")
}

word[1] == "COMM:" || word[1] == "COMM" && word[2] == "exec:" {
    text = text_after(text, word[1] == "COMM" ? 2 : 1)
    if (!match(text, /:[0-9]+\/[0-9]+$/)) fail()
    print "comm " ids(substr(text, RSTART + 1)) " " substr(text, 1, RSTART - 1)
}

word[1] == "MMAP" {
    print "mmap " ids(without(word[2], ":")) " " range(word[3]) " " hex(without(word[5], "]:")) " " text_after(text, 6)
}

word[1] == "MMAP2" {
    if (split(word[6], part, ":") != 2 || word[9] !~ /^[r-][w-][x-][sp]$/) fail()
    device = hex(part[1]) ":" hex(part[2])
    file = device " " number(word[7]) " " number(without(word[8], "]:"))
    place = range(word[3]) " " hex(word[5])
    print "mmap2 " ids(without(word[2], ":")) " " place " " file " " word[9] " " text_after(text, 9)
}

word[1] ~ /^(FORK|EXIT)\(/ {
    gsub(/[():]+/, " ", text)
    if (split(text, word, " ") != 5) fail()
    print tolower(word[1]) " " id(word[2]) " " id(word[3]) " " id(word[4]) " " id(word[5])
}

word[1] == "NAMESPACES" {
    if (word[4] != "nr_namespaces:") fail()
    wanted = number(word[5]) + 0
    found = 0
    line = "namespaces " ids(word[2])
    if (!wanted) print line " "
}

END {
    if (failed) exit 1
    if (wanted > 0) fail()
}
