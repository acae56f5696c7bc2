#!/usr/bin/env bash
# Runs perf_data over recordings, with the words that it knows and with others, and over damaged copies:
#
#     bindings/file_words_test.sh PROGRAM [WORD ..]
#
# What it must print of the recordings, in examples, comes from perf; what it must print of a damaged copy is worked out
# here from that. The last line is how many runs were tried, and how many failed; the status is 0 if none did.
set -u
if [ $# -lt 1 ]; then
    echo "usage: bindings/file_words_test.sh PROGRAM [WORD ..]" >&2
    exit 2
fi
program=("$@")
examples=$(cd "$(dirname "$0")/../examples" && pwd)
work=$(mktemp -d) || exit 2
trap 'rm -rf "$work"' EXIT
file=$work/events.data
cp "$examples/events.data" "$file"
input=/dev/null
tried=0
failed=0

# Compares the status and the output of a run with some words: check STATUS OUTPUT-FILE [WORD ..]. With status 2 and 3
# there must be an error, and with 2 just one line of it unless that is about words.
check() {
    status=$1 output=$2
    shift 2
    "${program[@]}" "$@" <"$input" >"$work/found.out" 2>"$work/found.err"
    found=$?
    tried=$((tried + 1))
    if [ $found != "$status" ] || ! cmp -s "$output" "$work/found.out" || { [ "$status" -ge 2 ] && ! [ -s "$work/found.err" ]; }; then
        failed=$((failed + 1))
        echo "FAILED: status $found, not $status, or another text, of:$(printf " '%s'" "$@")"
        diff "$output" "$work/found.out" | head -n 3
        head -n 3 "$work/found.err"
    fi
}

# A file that cannot be opened: refuses MESSAGE FILE
refuses() {
    check 2 /dev/null events "$2"
    check 2 /dev/null summary "$2"
    check 2 /dev/null dump "$2"
    [ "$(cat "$work/found.err")" = "perf_data: $2: $1" ] || {
        failed=$((failed + 1))
        echo "FAILED: another error of $2:"
        cat "$work/found.err"
    }
}

# Writes bytes over those of a copy: damage OFFSET BYTES-AS-OF-PRINTF
damage() {
    # shellcheck disable=SC2059  # the bytes are escapes
    printf "$2" | dd of="$work/damaged" bs=1 seek="$1" conv=notrunc status=none
}

# What it knows.
check 0 "$examples/events.events" events "$file"
check 0 "$examples/events.dump" dump "$file"
check 0 "$examples/events.dump" dump --order file "$file"
check 0 "$examples/events.time" dump --order time "$file"
check 0 "$examples/events.time" dump "$file" --order=time
input=$file
check 0 "$examples/events.events" events -
check 0 "$examples/events.dump" dump -
input=/dev/null

# Other recordings, and all of them as a big-endian machine writes them: shows NAME FILE
shows() {
    check 0 "$examples/$1.events" events "$2"
    check 0 "$examples/$1.dump" dump "$2"
    check 0 "$examples/$1.time" dump --order time "$2"
}
shows events "$examples/big-endian.data"
shows pipe "$examples/pipe.data"
for name in machine group killed; do
    shows $name "$examples/$name.data"
    if command -v python3 >/dev/null; then
        python3 "$examples/big-endian.py" "$examples/$name.data" >"$work/$name.big"
        shows $name "$work/$name.big"
    else
        echo "skipped: $name.data as a big-endian machine writes it: no python3"
    fi
done

# The text of the samples, as perf prints it.
for name in events pipe machine group; do
    check 0 "$examples/$name.script" script "$examples/$name.data"
done
check 0 "$examples/events.script" script "$examples/big-endian.data"
# Of a file whose perf was killed perf prints nothing: a line for each sample, which have no chain.
"${program[@]}" script "$examples/killed.data" >"$work/found.out" && [ "$(wc -l <"$work/found.out")" = "$(grep -c ' Sample ' "$examples/killed.time")" ] || {
    failed=$((failed + 1))
    echo "FAILED: script of killed.data"
}
tried=$((tried + 1))
# Samples that are chosen, as awk chooses them in what perf prints of all, and as `perf script` does by its words for
# processes, names and times; their stacks are those of that text: chosen NAME CONDITION WORD ..
chosen() {
    name=$1 condition=$2
    shift 2
    awk "/^[^\t]/ {
        at = match(\$0, /[0-9]+\/[0-9]+ /)
        comm = substr(\$0, 1, at - 1)
        gsub(/^ +| +\$/, \"\", comm)
        pid = substr(\$0, at) + 0
        match(\$0, /[0-9]+\.[0-9]+: /)
        time = substr(\$0, RSTART, RLENGTH - 2) + 0
        event = substr(\$0, RSTART + RLENGTH)
        sub(/^ *[0-9]+ +/, \"\", event)
        sub(/: .*/, \"\", event)
        on = $condition
    }
    on" "$examples/$name.script" >"$work/output"
    check 0 "$work/output" script "$@" "$examples/$name.data"
    if [ $name = events ]; then
        awk -v files= -f "$examples/fold.awk" "$work/output" | LC_ALL=C sort >"$work/chosen"
        check 0 "$work/chosen" fold "$@" "$file"
    fi
}
faults=page-faults/period=7,call-graph=fp/
chosen events 'pid == 4583 || pid == 4587' --pid 4583,4587
chosen events 'comm == "ls" || comm == "sleep"' --comm ls,sleep
chosen events 'time >= 1759.722011944 && time <= 1759.725336359' --time 1759.722011944,1759.725336359
chosen events 'time >= 1759.7254' --time 1759.7254,
chosen events 'time <= 1759.722011944' --time=,1759.722011944
chosen events "event == \"$faults\"" --event $faults
chosen events "comm == \"sh\" && pid == 4587 && time >= 1759.724 && event == \"$faults\"" \
    --comm sh --pid 4587 --time 1759.724, --event $faults
chosen events 1 --time ,
chosen events 0 --pid 9
chosen machine 'comm == "swapper"' --comms swapper
chosen machine 'pid == 4' --pid 4
chosen group 'time >= 925.574 && time <= 925.578' --time 925.574,925.578
chosen group 'event == "page-faults"' --event page-faults
"${program[@]}" fold --pid 4583 "$file" >"$work/chosen"
"${program[@]}" flame --folded "$work/chosen" >"$work/output"
check 0 "$work/output" flame --pid 4583 "$file"
for words in '--event cycles' '--time 5' '--time 2,1' '--time 1,x' '--time 1.0123456789,' '--time -1,' '--time 18446744074,' '--pid ls' '--pid -1'; do
    for command in script fold flame; do
        # shellcheck disable=SC2086  # these are several words
        check 2 /dev/null $command $words "$file"
    done
done
# The fields that are chosen, and the lines of other records, as perf 6.1 prints them: lines FILE FIELDS [WORD ..]
lines() {
    perf script --ns -i "$1" -F "$2" >"$work/output" 2>/dev/null
    check 0 "$work/output" script -F "$2" "$1"
    perf script --ns -i "$1" -F "$2" "${records[@]}" >"$work/output" 2>/dev/null
    check 0 "$work/output" script --side-band -F "$2" "$1"
}
records=(--show-task-events --show-mmap-events --show-lost-events --show-switch-events --show-namespace-events --show-bpf-events --show-cgroup-events)
default=comm,pid,tid,time,period,event,ip,dso
if command -v perf >/dev/null && perf script --ns -i "$file" -F $default 2>/dev/null | cmp -s - "$examples/events.script"; then
    for fields in $default comm,time,event dso,ip comm,ip time tid,ip,period pid event,comm,pid,dso; do
        for name in events machine group; do
            lines "$examples/$name.data" $fields
        done
    done
    for fields in cpu,$default tid,cpu,ip cpu,pid,event; do
        lines "$examples/machine.data" $fields
    done
    if command -v python3 >/dev/null; then
        # An event of software with TID, TIME and CPU, and a record of each kind that has a line.
        python3 - >"$work/side.data" <<'END'
import struct, sys
attr = struct.pack("<IIQQQQQ", 1, 64, 0, 1000, 1 | 2 | 4 | 128, 0, 1 << 18) + bytes(16)
ident = lambda pid, tid, time: struct.pack("<IIQII", pid, tid, time, 3, 0)
padded = lambda text: text.encode() + bytes(8 - len(text) % 8)
def record(type_, misc, body, who):
    body += ident(*who)
    return struct.pack("<IHH", type_, misc, 8 + len(body)) + body
mmap = struct.pack("<IIQQQ", 7, 8, 0x1000, 0x2000, 0)
frames = b"".join([
    record(3, 1 << 13, struct.pack("<II", 7, 7) + padded("sh"), (7, 7, 1_000_000_001)),
    record(7, 0, struct.pack("<IIIIQ", 7, 7, 8, 7, 1_000_000_002), (7, 7, 1_000_000_002)),
    record(1, 1 << 13, mmap + padded("//anon"), (7, 8, 1_000_000_003)),
    record(10, 2, mmap + struct.pack("<IIQQII", 8, 17, 99, 5, 5, 1) + padded("/bin/sh"), (7, 8, 1_000_000_004)),
    record(10, 2 | 1 << 14, mmap + b"\x14\0\0\0" + bytes(range(0, 200, 10)) + struct.pack("<II", 3, 2) + padded("/bin/id"), (7, 8, 1_000_000_005)),
    record(2, 0, struct.pack("<QQ", 0, 12345), (7, 8, 1_000_000_006)),
    record(14, 1 << 13, b"", (7, 8, 1_000_000_007)),
    record(14, 0, b"", (0, 0, 1_000_000_008)),
    record(15, 3 << 13, struct.pack("<II", 9, 10), (7, 8, 1_000_000_009)),
    record(15, 0, struct.pack("<ii", -1, -1), (9, 10, 1_000_000_010)),
    record(17, 0, struct.pack("<QIHH", 0xffffffffc0000000, 64, 1, 0) + padded("bpf_prog_1"), (7, 7, 1_000_000_011)),
    record(18, 0, struct.pack("<HHI", 1, 0, 33) + bytes(8), (7, 7, 1_000_000_012)),
    record(19, 0, struct.pack("<Q", 7) + padded("/user.slice"), (7, 7, 1_000_000_013)),
    struct.pack("<IHHQIIQII", 9, 2, 40, 0x1010, 7, 8, 1_000_000_014, 3, 0),
    record(4, 0, struct.pack("<IIIIQ", 7, 7, 8, 7, 1_000_000_015), (7, 8, 1_000_000_015)),
    record(16, 0, struct.pack("<IIQ", 7, 8, 9) + b"".join(struct.pack("<QQ", 4 + i, 0xf0000000 * i) for i in range(9)), (7, 8, 1_000_000_016)),
    record(16, 0, struct.pack("<IIQ", 7, 8, 0), (7, 7, 1_000_000_017)),
])
head = 104
data = head + len(attr) + 16
sys.stdout.buffer.write(b"PERFILE2" + struct.pack("<QQQQQQQQQ", head, len(attr) + 16, head, len(attr) + 16, data, len(frames), 0, 0, 0) + bytes(24) + attr + struct.pack("<QQ", 0, 0) + frames)
END
        lines "$work/side.data" cpu,pid,tid,comm,time,ip,dso
        lines "$work/side.data" comm,period
    else
        echo "skipped: lines of other records: no python3"
    fi
else
    echo "skipped: fields and lines of other records: no perf 6.1"
fi
for fields in sym comm,sym comm, ''; do
    check 2 /dev/null script -F "$fields" "$file"
    [ "$(wc -l <"$work/found.err")" = 1 ] && grep -q 'comm,pid,tid,cpu,time,period,event,ip,dso$' "$work/found.err" || {
        failed=$((failed + 1))
        echo "FAILED: the error of script -F $fields"
        cat "$work/found.err"
    }
done
# A sample of a guest has no line, as for perf: the third is made one by its misc.
cp "$examples/machine.data" "$work/damaged"
at=$(grep ' Sample ' "$examples/machine.time" | sed -n 3p | cut -d ' ' -f 2)
damage $((at + 4)) '\4'
sed 3d "$examples/machine.script" >"$work/output"
check 0 "$work/output" script "$work/damaged"

# What perf states about the machine and the command, before the events: the machine is `vm`, and the words are those of
# examples/record-events.sh. header NAME FILE [WORD ..]
header() {
    name=$1 file_of_it=$2
    shift 2
    {
        echo '# hostname : vm'
        if [ $# -gt 0 ]; then
            echo '# os release : 6.18.44-fc-v595'
            printf '# cmdline : /usr/bin/perf record -q -B -o'
            printf ' %s' "$@"
            printf '\n# sample times : 0 0\n'
        fi
        cat "$examples/$name.events"
    } >"$work/output"
    check 0 "$work/output" events --header "$file_of_it"
}
header events "$file" events.data -e task-clock/period=2000000/ -e page-faults/period=7,call-graph=fp/ -e context-switches/period=1/ \
    --namespaces -- sh -c 'ls / >/dev/null\x0a        date > /dev/null\x0a        sleep 0.01 & wait'
header pipe "$examples/pipe.data" - -e task-clock/period=2000000/ -e page-faults/period=7,call-graph=fp/ -e context-switches/period=1/ \
    --namespaces -- sh -c 'ls / >/dev/null\x0a        date > /dev/null\x0a        sleep 0.01 & wait'
# The build ids that perf writes to a pipe, as it lists them itself, in any order.
if command -v perf >/dev/null && perf inject -b -o - <"$examples/pipe.data" >"$work/built" 2>/dev/null &&
    perf buildid-list -i - <"$work/built" 2>/dev/null | grep '^[0-9a-f]' | sort >"$work/output" && [ -s "$work/output" ]; then
    "${program[@]}" events --header "$work/built" | sed -n 's/^# build id : //p' | sort >"$work/found.out"
    cmp -s "$work/output" "$work/found.out" || {
        failed=$((failed + 1))
        echo "FAILED: the build ids of a pipe"
        diff "$work/output" "$work/found.out" | head -n 3
    }
    tried=$((tried + 1))
else
    echo "skipped: build ids of a pipe: no perf that writes them"
fi
header machine "$examples/machine.data" machine.data -a -e cpu-clock/freq=1000/ -- sh -c 'ls / > /dev/null\x0a        sleep 0.01'
header group "$examples/group.data" group.data -e '{task-clock,page-faults}:S' -c 250000 -- ls -l /usr/bin
header events "$examples/big-endian.data"
check 0 "$examples/killed.events" events --header "$examples/killed.data"

# The threads of a recording, each with when it began and ended and its last name, as `perf script --ns --show-task-events`
# prints them; of the recording whose perf was killed by `od`, at the ends of its COMM, FORK and EXIT: threads_of NAME
threads_of() {
    case $1 in
    events) printf '%s\n' '4573/4573 1759690213285 1759735887329 sh' '4583/4583 1759690872800 1759722838272 ls' \
        '4586/4586 1759723103641 1759723685810 date' '4587/4587 1759724011248 1759735606455 sleep' ;;
    pipe) printf '%s\n' '26136/26136 923281953818 923303328785 sh' '26138/26138 923282496734 923285080327 ls' \
        '26139/26139 923285290482 923289050858 date' '26140/26140 923289208372 923303167128 sleep' ;;
    group) echo '26193/26193 925571144128 925580644437 ls' ;;
    machine) printf '%s\n' '0/0 924413952597 - swapper' '1/1 - - perf' '1/3 924370521185 - perf' '2/2 924413557785 924435171610 sh' \
        '4/4 924414163567 924421253770 ls' '5/5 924421409916 924435007738 sleep' ;;
    killed) printf '%s\n' '26196/26196 926720851052 - sh' '26198/26198 926721483138 926722108667 ls' '26199/26199 926722305958 - sleep' ;;
    esac
}

# What is counted, as awk counts it in the lines of frames, which perf has read. A sample that contains no period has that of
# its event, which is what `perf record` was given: summary NAME FILE HEADER PERIOD ..
summary() {
    name=$1 file_of_it=$2 head=$3
    shift 3
    {
        printf '%s' "$head"
        awk -v fixed="$*" '
            BEGIN {
                split(fixed, period_of, " ")
                split("MMAP LOST COMM EXIT THROTTLE UNTHROTTLE FORK READ SAMPLE MMAP2 AUX ITRACE_START LOST_SAMPLES SWITCH SWITCH_CPU_WIDE NAMESPACES KSYMBOL BPF_EVENT CGROUP", names, " ")
                split("ATTR EVENT_TYPE TRACING_DATA BUILD_ID FINISHED_ROUND ID_INDEX AUXTRACE_INFO AUXTRACE AUXTRACE_ERROR THREAD_MAP CPU_MAP STAT_CONFIG STAT STAT_ROUND EVENT_UPDATE TIME_CONV FEATURE COMPRESSED FINISHED_INIT", own, " ")
            }
            function number(name, absent) { return match($0, " " name "=[0-9]+") ? substr($0, RSTART + length(name) + 2, RLENGTH - length(name) - 2) : absent }
            FILENAME == ARGV[1] { threads++; who[threads] = $1; start[threads] = $2; end[threads] = $3; comm[threads] = $4; next }
            FILENAME == ARGV[2] { events++; number_of[events] = $1; sub(/ type=.*/, ""); sub(/^[0-9]+ /, ""); event[events] = $0; next }
            { frames++; types[$4]++ }
            $7 == "refused" { refused++; if ($3 ~ /^[0-9]+$/) of_event[$3]++; next }
            $4 == 4 { ended[number("pid", 0) "/" number("tid", 0)] }
            $4 == 2 || $4 == 13 { lost[$3] += number("lost", 0) }
            $4 == 9 {
                samples[$3]++
                taken[number("pid", 0) "/" number("tid", 0)]++
                period[$3] += number("period", period_of[$3 + 1])
                time = number("time", "-")
                if (!($3 in first) || time < first[$3]) first[$3] = time
                if (!($3 in last) || time > last[$3]) last[$3] = time
            }
            END {
                printf "file frames=%d refused=%d\n", frames, refused
                for (i = 1; i <= events; i++) {
                    e = number_of[i]
                    printf "event %s samples=%d period=%d first=%s last=%s lost=%.0f refused=%d %s\n", e, samples[e], period[e], e in first ? first[e] : "-", e in last ? last[e] : "-", lost[e], of_event[e], event[i]
                }
                for (ty = 0; ty < 128; ty++)
                    if (ty in types) printf "type %d frames=%d %s\n", ty, types[ty], ty < 64 ? names[ty] : own[ty - 63]
                for (i = 1; i <= threads; i++) {
                    w = who[i]
                    printf "thread %s samples=%d start=%s end=%s %s\n", w, taken[w], start[i], w in ended ? end[i] : "-", comm[i]
                }
            }' <(threads_of "$name") "$examples/$name.events" "${dump:-$examples/$name.dump}"
    } >"$work/output"
    check "${status_of_it:-0}" "$work/output" summary "$file_of_it"
    json "${status_of_it:-0}" "$file_of_it"
}

# The same numbers as JSON, which another reader of JSON prints as that text: json STATUS FILE
json() {
    if ! command -v python3 >/dev/null; then
        echo "skipped: a summary as JSON: no python3"
        return
    fi
    "${program[@]}" summary --json "$2" >"$work/found.json" 2>"$work/found.err"
    found=$?
    tried=$((tried + 1))
    python3 - "$work/found.json" >"$work/found.out" <<'END'
import json, sys
text = open(sys.argv[1]).read()
it = json.loads(text)
assert text == json.dumps(it, separators=(",", ":"), sort_keys=True) + "\n"
number = lambda n: "-" if n is None else n
for name in "hostname", "os_release", "command_line":
    shown = {"os_release": "os release", "command_line": "cmdline"}.get(name, name)
    if isinstance(it[name], dict):
        print("#", shown, *it[name])
    elif it[name] is not None:
        print("#", shown, ":", *([it[name]] if isinstance(it[name], str) else it[name]))
print(f"file frames={it['frames']} refused={it['refused']}")
for n, e in enumerate(it["events"]):
    first, last = number(e["first"]), number(e["last"])
    print(f"event {n} samples={e['samples']} period={e['period']} first={first} last={last} lost={e['lost']} refused={e['refused']} {e['name']}")
for t in it["types"]:
    print("type", "other frames=" + str(t["frames"]) if t["type"] is None else f"{t['type']} frames={t['frames']} {t['name']}")
for t in it["threads"]:
    print(f"thread {t['pid']}/{t['tid']} samples={t['samples']} start={number(t['start'])} end={number(t['end'])} {t['name']}")
END
    [ $found = "$1" ] && cmp -s "$work/output" "$work/found.out" || {
        failed=$((failed + 1))
        echo "FAILED: status $found, not $1, or another text, of the JSON of $2:"
        diff "$work/output" "$work/found.out" | head -n 3
        head -n 3 "$work/found.err"
    }
}
stated() { printf '# hostname : vm\n# os release : 6.18.44-fc-v595\n# cmdline : /usr/bin/perf record -q -B -o'; printf ' %s' "$@"; printf '\n.'; }
three='-e task-clock/period=2000000/ -e page-faults/period=7,call-graph=fp/ -e context-switches/period=1/ --namespaces -- sh -c '
script='ls / >/dev/null\x0a        date > /dev/null\x0a        sleep 0.01 & wait'
head_of_events=$(stated events.data "$three$script")
summary events "$file" "${head_of_events%.}" 2000000 7 1
head_of_it=$(stated - "$three$script")
summary pipe "$examples/pipe.data" "${head_of_it%.}" 2000000 7 1
head_of_it=$(stated machine.data -a -e cpu-clock/freq=1000/ -- sh -c 'ls / > /dev/null\x0a        sleep 0.01')
summary machine "$examples/machine.data" "${head_of_it%.}" 0 0
head_of_it=$(stated group.data -e '{task-clock,page-faults}:S' -c 250000 -- ls -l /usr/bin)
summary group "$examples/group.data" "${head_of_it%.}" 250000 250000
summary killed "$examples/killed.data" '' 3 3
summary events "$examples/big-endian.data" '# hostname : vm
' 2000000 7 1
input=$file
check 0 "$work/output" summary "$examples/big-endian.data"
input=/dev/null

# A bad feature: the length of the name of the machine is the first number of the first feature, whose offset is the first
# number after the data. Then the offset is beyond the file.
read -r last size < <(tail -n 1 "$examples/events.dump" | cut -d ' ' -f 2,6)
table=$((last + size))
name_at=$(od -A n -t u8 -j $table -N 8 "$file")
{
    echo '# hostname refused'
    "${program[@]}" events --header "$file" | tail -n +2
} >"$work/output"
cp "$file" "$work/damaged"
damage $name_at '\100\0\0\1'
check 1 "$work/output" events --header "$work/damaged"
cp "$file" "$work/damaged"
damage $((table + 7)) '\1'
check 1 "$work/output" events --header "$work/damaged"
{
    echo '# hostname refused'
    "${program[@]}" summary "$file" | tail -n +2
} >"$work/output"
check 1 "$work/output" summary "$work/damaged"
json 1 "$work/damaged"
check 0 "$examples/events.events" events "$work/damaged"

# Folded stacks, which perf has counted: parts of them in any order add up to all, as awk adds them.
folded=$examples/events.folded
head -n 20 "$folded" >"$work/first"
tail -n +15 "$folded" >"$work/second"
awk '{ count = $NF; sub(/ [0-9]+$/, ""); sums[$0] += count } END { for (it in sums) print it, sums[it] }' \
    "$work/first" "$work/second" | LC_ALL=C sort >"$work/output"
check 0 "$folded" fold --merge "$folded"
check 0 "$work/output" fold --merge "$work/first" "$work/second"
check 0 "$work/output" fold --merge "$work/second" "$work/first"
input=$work/first
check 0 "$work/output" fold --merge "$work/second" -
input=/dev/null

# Of a recording the stacks are those that perf prints; by files alone where a sample has no call chain.
check 0 "$folded" fold "$file"
check 0 "$folded" fold "$examples/big-endian.data"
for name in machine; do
    check 0 "$examples/$name.files" fold --frames file "$examples/$name.data"
done
"${program[@]}" flame --folded "$folded" >"$work/output"
check 0 "$work/output" flame "$file"
check 2 /dev/null fold "$folded"

# Their flame graph, which an XML parser reads, also where names would open a tag: draws FOLDED
draws() {
    for way in '' --inverted; do
        # shellcheck disable=SC2086  # it is a word or none
        "${program[@]}" flame --folded $way "$1" >"$work/graph.svg" && "$examples/../tools/flame/boxes.py" $way "$1" "$work/graph.svg" >"$work/found.out" || {
            failed=$((failed + 1))
            echo "FAILED: the flame graph of $1"
            head -n 3 "$work/found.out"
        }
        tried=$((tried + 1))
    done
}
printf '<script>;]]>;&amp;" 7\na\001\033b;<![CDATA[ 3\n;; 1\n\303\274;x 18446744073709551000' >"$work/hostile"
if command -v python3 >/dev/null; then
    draws "$folded"
    draws "$work/hostile"
else
    echo "skipped: flame graphs: no python3"
fi

# A line that is refused, and counts that have too large a sum.
tells() {
    check 2 /dev/null "${@:2}"
    [ "$(cat "$work/found.err")" = "perf_data: $1" ] || {
        failed=$((failed + 1))
        echo "FAILED: another error:"
        cat "$work/found.err"
    }
}
printf 'sh 1\nsh one\n' >"$work/damaged"
bad="$work/damaged: line 2 is no folded stack: each line is a stack, a space and a count below 2^64"
tells "$bad" fold --merge "$folded" "$work/damaged" "$folded"
tells "$bad" flame --folded "$work/damaged"
printf 'a 18446744073709551615\nb 1' >"$work/damaged"
tells "$work/damaged: the counts have a sum of 2^64 or more: leave lines out" flame --folded "$work/damaged"

# Other words, and help.
for words in '' events dump summary other 'events one two' 'summary one two' 'summary --header one' 'summary --json' 'summary --json one two' 'dump --json one' 'dump one two' 'dump --order' 'dump --order size one' 'events --order time one' 'dump --header one' '--all' 'dump --all one' fold flame 'fold --merge' script 'script one two' 'script --all one' 'fold one two' 'flame --folded one two' 'flame --merge one' 'fold --merge --pid 1 one' 'flame --folded --event one two'; do
    # shellcheck disable=SC2086  # these are several words
    check 2 /dev/null $words
done
for words in --help 'events --help' 'dump --help' 'summary --help' 'script --help' 'fold --help' 'flame --help'; do
    # shellcheck disable=SC2086
    "${program[@]}" $words >"$work/found.out" 2>"$work/found.err" && [ -s "$work/found.out" ] && ! [ -s "$work/found.err" ] || {
        failed=$((failed + 1))
        echo "FAILED: $words"
    }
    tried=$((tried + 1))
done

# No file, an output that is full.
check 3 /dev/null events "$work/absent"
for words in dump summary; do
    "${program[@]}" $words "$file" >/dev/full 2>"$work/found.err"
    found=$?
    tried=$((tried + 1))
    [ $found = 3 ] && [ -s "$work/found.err" ] || {
        failed=$((failed + 1))
        echo "FAILED: status $found, not 3, of a full output"
    }
done

# No file of perf record.
refuses 'this is no perf.data file: pass a file that `perf record` has written' /dev/null
head -c 16 "$examples/pipe.data" >"$work/damaged"
refuses 'the file has no event, so it is damaged: copy it again, or record again' "$work/damaged"
cp "$file" "$work/damaged"
damage 75 '\10'
refuses 'the frames are compressed: run `perf inject -i perf.data -o plain.data`, or record without `-z`' "$work/damaged"
head -c 4000 "$file" >"$work/damaged"
refuses 'the frames end beyond the file, so it is cut off: copy it again, or record again' "$work/damaged"

# The last frame is FINISHED_ROUND, of eight bytes, and the one before it an EXIT.
lines=$(wc -l <"$examples/events.dump")
read -r number at _ < <(tail -n 1 "$examples/events.dump")
read -r before place _ _ _ size _ < <(tail -n 2 "$examples/events.dump")
head -n $((lines - 1)) "$examples/events.dump" >"$work/without_last"
head -n $((lines - 2)) "$examples/events.dump" >"$work/without_two"
tail -n 2 "$examples/events.dump" >"$work/last_two"

# The summary of a damaged copy, by its lines of frames: damaged_summary STATUS NAME DUMP
damaged_summary() {
    cp "$3" "$work/dump"
    status_of_it=$1 dump=$work/dump summary "$2" "$work/damaged" "${head_of_events%.}" 2000000 7 1
}

# As a SWITCH it is too short for an id.
cp "$file" "$work/damaged"
damage "$at" '\16'
{ cat "$work/without_last"; echo "$number $at ? 14 0 8 refused NoId"; } >"$work/output"
check 1 "$work/output" dump "$work/damaged"
damaged_summary 1 events "$work/output"

# An id that no event has is at the end of the EXIT.
cp "$file" "$work/damaged"
damage $((at - 8)) '\377\377\377\377\377\377\377\177'
{ cat "$work/without_two"; echo "$before $place ?9223372036854775807 4 0 $size refused UnknownId"; tail -n 1 "$examples/events.dump"; } >"$work/output"
check 1 "$work/output" dump "$work/damaged"
damaged_summary 1 events "$work/output"

# As AUXTRACE, which announces the bytes after it, it announces more than there are.
cp "$file" "$work/damaged"
damage "$place" '\107'
{ cat "$work/without_two"; echo "$before $place - 71 0 $size refused Eof"; } >"$work/output"
check 1 "$work/output" dump "$work/damaged"
damaged_summary 1 events "$work/output"

# As LOST the EXIT tells of its second number of eight bytes, as LOST_SAMPLES of the first.
task=$(sed -n 's/.* Exit pid=\([0-9]*\) ppid=\([0-9]*\) .*/\1 + (\2 << 32)/p' "$work/last_two")
cp "$file" "$work/damaged"
damage "$place" '\2'
{ cat "$work/without_two"; echo "$before $place 0 2 0 $size Lost id=0 lost=$((task))"; tail -n 1 "$examples/events.dump"; } >"$work/output"
damaged_summary 0 events "$work/output"
damage "$place" '\15'
{ cat "$work/without_two"; echo "$before $place 0 13 0 $size LostSamples lost=$((task))"; tail -n 1 "$examples/events.dump"; } >"$work/output"
damaged_summary 0 events "$work/output"

# perf was killed, and the file ends inside the EXIT.
head -c $((place + 20)) "$file" >"$work/damaged"
damage 48 '\0\0\0\0\0\0\0\0'
{ cat "$work/without_two"; echo "$before $place ? 4 0 $size refused Eof"; } >"$work/output"
check 1 "$work/output" dump "$work/damaged"

echo "$tried runs, $failed failed"
[ $failed = 0 ]
