# Folds what `perf script --ns -F comm,pid,tid,time,period,event,ip,dso` prints of a recording of several events: a line for
# each stack and how many samples have it. With `-v files=1` frames are named by their files alone. (Without a call
# chain perf prints the address and no offset, so those of a program can only be compared so.)
function frame(ip, dso) {
    gsub(/^\(|\)$|.*\//, "", dso)
    return ";" (ip ~ /^ffff/ ? "0x" ip "_[k]" : dso == "[unknown]" || files ? dso : dso "+0x" ip)
}
/^\t/ { chain = frame($1, $2) chain; next }
stack != "" { count[stack chain]++; stack = chain = "" }
match($0, / +[0-9]+\/[0-9]+ /) {
    stack = substr($0, 1, RSTART - 1); sub(/^ +/, "", stack)
    for (i = 1; $i !~ /:$/; i++);
    for (i++; $i !~ /:$/; i++);
    stack = stack ";" substr($i, 1, length($i) - 1); if ($(i + 1) != "") chain = frame($(i + 1), $(i + 2))
}
END { if (stack != "") count[stack chain]++; for (stack in count) print stack, count[stack] }
