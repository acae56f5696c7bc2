# Converts perf's dump of samples to the fields of their lines in `perfrec`, as far as perf prints them.
#
#     awk -f sample-fields.awk samples.dump.txt
#
#     Sample ip=N pid=N tid=N time=N addr=N cpu=N period=N callchain=N,N,.. regs_user_abi=N regs_user=N,.. weight=N
#     data_src=N transaction=N regs_intr_abi=N regs_intr=N,.. phys_addr=N data_page_size=N code_page_size=N
#
# in one line per sample, all numbers decimal. It is for samples that have all of these. perf doesn't print the sample's
# id, its raw bytes, the bytes of its stack or its control group. A line of another form ends the run with the status 1,
# and so does a weight that is not zero.

function fail() {
    print "sample-fields.awk: line " NR ": " $0 > "/dev/stderr"
    failed = 1
    exit 1
}

function number(text) {
    if (text !~ /^[0-9]+$/) fail()
    return text
}

# A hexadecimal number in decimal. Its low six decimal digits, the next six and so on are `limb[0]`, `limb[1]`, ..
function decimal(text,    k, j, carry, limb, out) {
    sub(/^0x/, "", text)
    if (text !~ /^[0-9a-f]+$/ || length(text) > 16) fail()
    for (j = 0; j < 4; j++) limb[j] = 0
    for (k = 1; k <= length(text); k++) {
        carry = index("0123456789abcdef", substr(text, k, 1)) - 1
        for (j = 0; j < 4; j++) {
            carry += limb[j] * 16
            limb[j] = carry % 1000000
            carry = int(carry / 1000000)
        }
    }
    out = sprintf("%06d%06d%06d%06d", limb[3], limb[2], limb[1], limb[0])
    sub(/^0+/, "", out)
    return out == "" ? "0" : out
}

function abi(text) {
    if (text == "64-bit") return 2
    if (text == "32-bit") return 1
    fail()
}

function page_size(text) {
    if (text == "N/A") return 0
    if (text == "4K") return 4096
    if (text == "2M") return 2097152
    fail()
}

# Begins the list `name`, of `count` numbers.
function begin(name, count) {
    if (wanted) fail()
    list = name
    say[list] = ""
    wanted = count
}

function item(text) {
    if (!wanted) fail()
    say[list] = say[list] (say[list] == "" ? "" : ",") decimal(text)
    wanted--
}

# How many registers a mask has.
function bits(mask,    k, digit, count) {
    sub(/^0x/, "", mask)
    for (k = 1; k <= length(mask); k++) {
        digit = index("0123456789abcdef", substr(mask, k, 1)) - 1
        for (; digit > 0; digit = int(digit / 2)) count += digit % 2
    }
    return count
}

# Prints the line of the sample that ends here.
function finish(    k, line) {
    if (wanted) fail()
    line = "Sample"
    for (k = 1; k <= fields; k++) {
        if (!(field[k] in say)) fail()
        line = line " " field[k] "=" say[field[k]]
        delete say[field[k]]
    }
    print line
}

BEGIN {
    fields = split("ip pid tid time addr cpu period callchain regs_user_abi regs_user weight data_src transaction" \
        " regs_intr_abi regs_intr phys_addr data_page_size code_page_size", field, " ")
}

# CPU TIME OFFSET [SIZE]: PERF_RECORD_SAMPLE(IP, MISC): PID/TID: IP period: PERIOD addr: ADDR
/: PERF_RECORD_SAMPLE\(/ {
    if (samples++) finish()
    if (split(substr($7, 1, length($7) - 1), id, "/") != 2) fail()
    say["cpu"] = number($1)
    say["time"] = number($2)
    say["pid"] = number(id[1])
    say["tid"] = number(id[2])
    say["ip"] = decimal($8)
    say["period"] = number($10)
    say["addr"] = decimal($12)
    next
}

/^\.\.\. FP chain: nr:/ { begin("callchain", substr($4, 4) + 0); next }
/^\.\.\.\.\. / { item($3); next }

# ... user regs: mask MASK ABI ABI
/^\.\.\. (user|intr) regs: mask / {
    say["regs_" $2 "_abi"] = abi($7)
    begin("regs_" $2, bits($5))
    next
}
/^\.\.\.\. [A-Z0-9]+ +0x/ { item($3); next }
/^\.\.\. ustack: size / { next }
/^\.\.\. weight: 0,0x0,0x0$/ { say["weight"] = 0; next }
/^ \. data_src: / { say["data_src"] = decimal($3); next }
/^ \.\. phys_addr: / { say["phys_addr"] = decimal($3); next }
/^ \.\. data page size: / { say["data_page_size"] = page_size($5); next }
/^ \.\. code page size: / { say["code_page_size"] = page_size($5); next }
/^\.\.\. transaction: / { say["transaction"] = decimal($3); next }
{ fail() }

END {
    if (failed) exit 1
    if (samples) finish()
}
