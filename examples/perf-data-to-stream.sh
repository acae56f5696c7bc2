#!/bin/sh
# Converts a file that `perf record` wrote to a stream for `perfrec little LIMIT attr`.
#
#     perf-data-to-stream.sh perf.data > recording.stream
#
# The stream is an attribute (`struct perf_event_attr`, as long as its own field `size` specifies) and after it the whole
# data section of the file, which is records one after another. They keep the order of the file: perf copies one
# processor's ring buffer after another's, so that times can go back. Besides the kernel's records (types 1 to 21) the
# section contains some of perf's own types, from 64 on, such as FINISHED_ROUND (68). They are kept too.
#
# A file has an attribute for each event that was recorded. The script takes the first. The others must agree with it in
# all that the reading of records depends on: size, sample_type, read_format, sample_id_all, branch_sample_type,
# sample_regs_user and sample_regs_intr. One event makes one attribute: `perf record -e cpu-clock`. With `-a` perf may
# add an event of its own (`dummy`), which has no frequency by default, so that its samples have no period. An explicit
# frequency or period makes both agree, as in `perf record -a -e cpu-clock -F 99` or with `-c 1000000`. If there are
# several attributes that agree, the script writes a line for each to standard error: the name of its event, and the ids
# of its samples.
#
# It refuses, with a message and the status 1, and writes nothing for: a name without a file, a file that can't be read,
# a folder, standard input (`-`: the file is read in several places, and a file of that name is `./-`), what isn't a file
# of perf, a big-endian or pipe mode file, one that perf did not close, one that is cut, attributes that differ (the
# message names the field and both values, and states what to do), and files whose data section isn't plain records:
# compressed (`perf record -z`), one file per thread (`--threads`), or with AUX data, which follows its record. For other
# arguments it prints a usage line, with the status 2.
#
# It needs `od`, `tr`, `wc`, `tail`, and a `head` that knows `-c`.
#
# The head of the file, all little endian (`struct perf_file_header` of the kernel's tools/perf/util/header.h):
#
#     at  0  8 bytes  PERFILE2
#     at  8  u64      the length of this head; 16 in pipe mode
#     at 16  u64      the length of an entry of the next section: an attribute and 16 bytes (where its ids are)
#     at 24  u64 u64  the section of the attributes: its place and length
#     at 40  u64 u64  the data section
#     at 56  u64 u64  unused
#     at 72  32 bytes a bit for each feature section: 12 EVENT_DESC, 18 AUXTRACE, 24 DIR_FORMAT, 27 COMPRESSED
#
# After the data section come, for each bit that is set, the place and length of that section (u64 u64). EVENT_DESC has
# a count and the length of an attribute (u32 u32), and for each event the attribute, the number of its ids (u32), its
# name with the length before it (u32), and the ids.

set -eu
LC_ALL=C
export LC_ALL

if [ $# -ne 1 ]; then
    echo "usage: perf-data-to-stream.sh PERF.DATA > STREAM" >&2
    exit 2
fi
file=$1

refuse() {
    echo "perf-data-to-stream.sh: $file: $1" >&2
    exit 1
}

# hex AT LEN: the bytes from AT on, two digits each, without spaces.
hex() {
    od -An -v -tx1 -j "$1" -N "$2" < "$file" | tr -d ' \n'
}

# number AT LEN: sets `number` to the little-endian number there, which is negative if it is 2^63 or more.
number() {
    number=0
    shift_by=0
    for byte in $(od -An -v -tu1 -j "$1" -N "$2" < "$file"); do
        number=$((number + (byte << shift_by)))
        shift_by=$((shift_by + 8))
    done
}

# section AT: sets `at` and `len` to the section whose place and length are the two numbers at AT.
section() {
    number "$1" 8
    at=$number
    number $(($1 + 8)) 8
    len=$number
    if [ "$at" -lt 0 ] || [ "$len" -lt 0 ] || [ "$at" -gt "$total" ] || [ "$len" -gt $((total - at)) ]; then
        refuse "cut: a section goes beyond its end"
    fi
}

# is_dummy AT: whether the attribute there is of perf's own event, which counts nothing: type 1, config 9.
is_dummy() {
    number "$1" 4
    [ "$number" -eq 1 ] || return 1
    number $(($1 + 8)) 8
    [ "$number" -eq 9 ]
}

# differs NAME ONE OTHER: refuses the attribute at `at`, whose field NAME has another value than the first's. If only
# the samples of one event have a period (0x100 of sample_type), only that event has a frequency.
differs() {
    event=$(((at - first) / entry + 1))
    advice="record one event only, with -e EVENT"
    added=
    if is_dummy "$at"; then
        advice="record without -a"
        added=" (attribute $event is dummy: perf added it, as with -a)"
    fi
    if [ "$1" = sample_type ] && [ $(($2 ^ $3)) -eq 256 ]; then
        advice="record with -F 99 or with -c 1000000, which holds for all events"
    fi
    refuse "$(printf 'its attributes 1 and %d differ in %s, 0x%x and 0x%x%s: %s' \
        "$event" "$1" "$2" "$3" "$added" "$advice")"
}

# same NAME AT LEN: checks that the field NAME, which has these bytes, is in the attribute at `at` as in the first.
same() {
    number $((first + $2)) "$3"
    one=$number
    number $((at + $2)) "$3"
    [ "$number" -eq "$one" ] || differs "$1" "$one" "$number"
}

# agrees: checks that the attribute at `at` agrees with the first, whose size is `size`.
agrees() {
    same size 4 4
    same sample_type 24 8
    same read_format 32 8
    number $((first + 42)) 1
    one=$((number >> 2 & 1))
    number $((at + 42)) 1
    [ $((number >> 2 & 1)) -eq "$one" ] || differs sample_id_all "$one" $((number >> 2 & 1))
    if [ "$size" -ge 80 ]; then same branch_sample_type 72 8; fi
    if [ "$size" -ge 96 ]; then same sample_regs_user 80 8; fi
    if [ "$size" -ge 104 ]; then same sample_regs_intr 96 8; fi
}

# find_names: sets `names` to the place of the first event in the feature section of their descriptions, and `described`
# to the length of an attribute there. Without that section `names` is 0.
find_names() {
    names=0
    number 72 8
    features=$number
    [ $((features >> 12 & 1)) -eq 1 ] || return 0
    place=0
    for feature in 0 1 2 3 4 5 6 7 8 9 10 11; do
        place=$((place + (features >> feature & 1)))
    done
    section $((records + records_len + 16 * place))
    number $((at + 4)) 4
    described=$number
    names=$((at + 8))
}

# next_name: sets `name` to that of the event at `names`, and `names` to the place of the next one.
next_name() {
    number $((names + described)) 4
    ids=$number
    number $((names + described + 4)) 4
    name_at=$((names + described + 8))
    [ $((name_at + number)) -le "$total" ] || refuse "cut: a name of an event goes beyond its end"
    name=$(head -c $((name_at + number)) < "$file" | tail -c "$number" | tr -cd '[:print:]')
    names=$((name_at + number + 8 * ids))
}

# tell_events: writes the name and the ids of each event to standard error.
tell_events() {
    find_names
    event_at=$first
    while [ "$event_at" -lt "$end" ]; do
        name="of an unknown name"
        if [ "$names" -gt 0 ]; then next_name; fi
        section $((event_at + entry - 16))
        line="event $(((event_at - first) / entry + 1)) is $name, with the ids"
        id_at=$at
        while [ "$id_at" -lt $((at + len)) ]; do
            number "$id_at" 8
            line="$line $number"
            id_at=$((id_at + 8))
        done
        echo "perf-data-to-stream.sh: $file: $line" >&2
        event_at=$((event_at + entry))
    done
}

[ "$file" != - ] || refuse "standard input can't be read in several places: write it to a file first"
[ -e "$file" ] || refuse "no such file"
[ ! -d "$file" ] || refuse "a folder"
[ -f "$file" ] || refuse "not a plain file"
[ -r "$file" ] || refuse "can't be read: no permission"
total=$(($(wc -c < "$file")))
[ "$total" -ge 16 ] || refuse "not a file of perf: too short"
case $(hex 0 8) in
    50455246494c4532) ;;
    32454c4946524550) refuse "big endian" ;;
    *) refuse "not a file of perf: it doesn't begin with PERFILE2" ;;
esac
number 8 8
[ "$number" -ne 16 ] || refuse "in pipe mode: record with -o FILE"
[ "$number" -eq 104 ] && [ "$total" -ge 104 ] || refuse "not a file of perf: its head isn't 104 bytes long"

number 74 1
[ $((number & 4)) -eq 0 ] || refuse "has AUX data"
number 75 1
[ $((number & 1)) -eq 0 ] || refuse "has its records in one file a thread"
[ $((number & 8)) -eq 0 ] || refuse "compressed: record without -z"

number 16 8
entry=$number
section 24
[ "$entry" -ge 80 ] && [ "$len" -gt 0 ] && [ $((len % entry)) -eq 0 ] || refuse "its attributes have no lawful size"
first=$at
end=$((at + len))
number $((first + 4)) 4
size=$number
[ "$size" -ge 64 ] && [ "$size" -le $((entry - 16)) ] || refuse "its first attribute has no lawful size"
at=$((first + entry))
while [ "$at" -lt "$end" ]; do
    agrees
    at=$((at + entry))
done

section 40
[ "$len" -gt 0 ] || refuse "has no records: perf did not close it, or recorded nothing"

records=$at
records_len=$len

if [ $((end - first)) -gt "$entry" ]; then tell_events; fi
head -c $((first + size)) < "$file" | tail -c "$size"
head -c $((records + records_len)) < "$file" | tail -c "$records_len"
