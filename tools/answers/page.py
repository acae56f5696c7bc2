"""The text of a run as docs/FORMATS.md specifies it, written from that page and from no program."""

import collections


class Refused(Exception):
    pass


class Reader:
    def __init__(self, data, order):
        self.left, self.order = data, order

    def take(self, count):
        if count > len(self.left):
            raise Refused("Eof")
        taken, self.left = self.left[:count], self.left[count:]
        return taken

    def number(self, width):
        return int.from_bytes(self.take(width), self.order)

    def rest(self):
        return self.take(len(self.left))


WIDTHS = {"H": 2, "I": 4, "Q": 8}
FIELDS = {
    1: ("Mmap", "pid:I tid:I addr:Q len:Q pgoff:Q filename:name"),
    2: ("Lost", "id:Q lost:Q"),
    3: ("Comm", "pid:I tid:I comm:name"),
    4: ("Exit", "pid:I ppid:I tid:I ptid:I time:Q"),
    5: ("Throttle", "time:Q id:Q stream_id:Q"),
    6: ("Unthrottle", "time:Q id:Q stream_id:Q"),
    7: ("Fork", "pid:I ppid:I tid:I ptid:I time:Q"),
    8: ("Read", "pid:I tid:I :values"),
    10: ("Mmap2", "pid:I tid:I addr:Q len:Q pgoff:Q :detail prot:I flags:I filename:name"),
    11: ("Aux", "aux_offset:Q aux_size:Q flags:Q"),
    12: ("ITraceStart", "pid:I tid:I"),
    13: ("LostSamples", "lost:Q"),
    14: ("Switch", ""),
    15: ("SwitchCpuWide", "pid:I tid:I :out"),
    16: ("Namespaces", "pid:I tid:I :namespaces"),
    17: ("KSymbol", "addr:Q len:I ksym_type:H flags:H name:name"),
    18: ("BpfEvent", "ty:H flags:H id:I tag:tag"),
    19: ("CGroup", "id:Q path:name"),
    20: ("TextPoke", "addr:Q :poke"),
    21: ("AuxOutputHwId", "hw_id:Q"),
}


# What a single read has, each with the bit of the read format by which it is present: the value always is.
SINGLE_READ = [("value", None), ("time_enabled", 0), ("time_running", 1), ("id", 2), ("lost", 4)]
GROUP, KNOWN_BITS = 3, 5


def words_of_field(name, kind, misc, read_format, reader):
    if kind in WIDTHS:
        return ["%s=%d" % (name, reader.number(WIDTHS[kind]))]
    if kind == "name":
        return ["%s=%s" % (name, reader.rest().rstrip(b"\0").hex())]
    if kind == "tag":
        return ["tag=" + reader.take(8).hex()]
    if kind == "out":
        return ["out=%d" % (misc >> 13 & 1)]
    if kind == "detail":
        if misc >> 14 & 1 == 0:
            widths = [("maj", 4), ("min", 4), ("ino", 8), ("ino_generation", 8)]
            return ["%s=%d" % (part, reader.number(width)) for part, width in widths]
        bytes_ = reader.take(24)
        if bytes_[0] > 20:
            raise Refused("InvalidRecord")
        return ["build_id=" + bytes_[4 : 4 + bytes_[0]].hex()]
    if kind == "values":
        if read_format >> GROUP & 1 or read_format >> KNOWN_BITS:
            raise Refused("UnsupportedConfig")
        parts = [part for part, bit in SINGLE_READ if bit is None or read_format >> bit & 1]
        return ["%s=%d" % (part, reader.number(8)) for part in parts]
    if kind == "namespaces":
        count = reader.number(8)
        if count > len(reader.left) // 16:
            raise Refused("Eof")
        return ["namespaces=" + ",".join("%d:%d" % (reader.number(8), reader.number(8)) for _ in range(count))]
    assert kind == "poke"
    old, new = reader.number(2), reader.number(2)
    length = old + new + (4 - old - new) % 8
    run = reader.take(length)
    return ["old_bytes=" + run[:old].hex(), "new_bytes=" + run[old : old + new].hex()]


# What an attribute specifies about the frames after it; without one everything is 0.
Asked = collections.namedtuple("Asked", "id_length read_format sample_type hw_index user interrupt")

# The flags of a sample, by the names of their fields, and the fields that are one number of eight bytes.
FLAGS = "ip tid time addr values callchain id cpu period stream_id raw lbr regs_user stack_user weight data_src"
FLAGS += " identifier transaction regs_intr phys_addr aux cgroup data_page_size code_page_size weight_struct"
BYTES = "identifier ip tid time addr id stream_id cpu period values callchain raw lbr regs_user stack_user weight"
BYTES += " data_src transaction regs_intr phys_addr cgroup data_page_size code_page_size aux"
LINE = "ip pid tid time addr id stream_id cpu period time_enabled time_running values callchain raw lbr_hw_index lbr"
LINE += " regs_user_abi regs_user stack_user weight data_src transaction regs_intr_abi regs_intr phys_addr aux cgroup"
LINE += " data_page_size code_page_size"


class SampleReader(Reader):
    """Reads the fields of a sample that aren't one number; each returns the words of its line by their names."""

    def __init__(self, data, order, asked):
        super().__init__(data, order)
        self.asked = asked

    def numbers(self, count):
        if count > len(self.left) // 8:
            raise Refused("Eof")
        return [self.number(8) for _ in range(count)]

    def tid(self):
        return {"pid": self.number(4), "tid": self.number(4)}

    def cpu(self):
        return {"cpu": self.number(4), "": self.number(4)}

    def values(self):
        read_format = self.asked.read_format
        if read_format >> KNOWN_BITS:
            raise Refused("UnsupportedConfig")
        entry = 1 + (read_format >> 2 & 1) + (read_format >> 4 & 1)
        grouped = read_format >> GROUP & 1
        first = self.number(8)
        times = {part: self.number(8) for part, bit in SINGLE_READ[1:3] if read_format >> bit & 1}
        if not grouped:
            items = [[first] + self.numbers(entry - 1)]
        elif first * entry >= 2**64:
            raise Refused("InvalidRecord")
        else:
            run = self.numbers(first * entry)
            items = [run[at : at + entry] for at in range(0, len(run), entry)]
        return times | {"values": ",".join(":".join(map(str, item)) for item in items)}

    def callchain(self):
        return {"callchain": ",".join(map(str, self.numbers(self.number(8))))}

    def raw(self):
        length = self.number(4)
        bytes_ = self.take(length)
        self.take(-(4 + length) % 8)
        return {"raw": bytes_.hex()}

    def lbr(self):
        count, said = self.number(8), {}
        if self.asked.hw_index:
            said["lbr_hw_index"] = self.number(8)
        run, items = self.numbers(3 * count), []
        for at in range(0, len(run), 3):
            word = run[at + 2]
            bits = [word >> bit & 1 for bit in range(4)] + [word >> 4 & 0xFFFF, word >> 20 & 15]
            items.append(":".join(map(str, run[at : at + 2] + bits)))
        return said | {"lbr": ",".join(items)}

    def registers(self, name, mask):
        abi = self.number(8)
        values = self.numbers(bin(mask).count("1") if abi else 0)
        return {name + "_abi": abi, name: ",".join(map(str, values))}

    def regs_user(self):
        return self.registers("regs_user", self.asked.user)

    def regs_intr(self):
        return self.registers("regs_intr", self.asked.interrupt)

    def stack_user(self):
        size = self.number(8)
        bytes_ = self.take(size)
        used = self.number(8) if size else 0
        if used > size:
            raise Refused("InvalidRecord")
        return {"stack_user": bytes_[:used].hex()}

    def aux(self):
        return {"aux": self.take(self.number(8)).hex()}


def sample(asked, body, order):
    reader, said = SampleReader(body, order, asked), {}
    there = {name for bit, name in enumerate(FLAGS.split()) if asked.sample_type >> bit & 1}
    if "weight_struct" in there:
        there.add("weight")
    for name in BYTES.split():
        if name in there:
            more = getattr(reader, name, None)
            said |= more() if more else {name: reader.number(8)}
    said.setdefault("id", said.get("identifier"))
    words = ["%s=%s" % (name, said[name]) for name in LINE.split() if said.get(name) is not None]
    return " ".join(["Sample"] + words)


def answer(type_, misc, asked, body, order):
    reader = Reader(body, order)
    if type_ == 9:
        return sample(asked, body, order)
    if type_ not in FIELDS:
        return "Unknown data=" + body.hex()
    record, fields = FIELDS[type_]
    words = [record]
    for field in fields.split():
        words += words_of_field(*field.split(":"), misc, asked.read_format, reader)
    return " ".join(words)


def attribute(reader):
    """What the attribute at the beginning of the reader specifies."""
    reader.number(4)
    size = reader.number(4)
    if size not in (64, 72, 80, 96, 104, 112, 120, 128, 136) and size <= 136:
        raise Refused("InvalidRecord")
    rest = reader.take(size - 8)
    if any(rest[128:]):
        raise Refused("UnsupportedData")
    # Fields beyond the size are 0; two of 4 bytes before config1, and two after the mask of user registers.
    fields = Reader(rest + bytes(128), reader.order)
    _, _, sample_type, read_format, flags = [fields.number(8) for _ in range(5)]
    fields.take(8 + 8 + 8)
    branch_sample_type, user, _, interrupt = [fields.number(8) for _ in range(4)]
    id_length = 8 * sum(sample_type >> bit & 1 for bit in (1, 2, 6, 7, 9, 16)) if flags >> 18 & 1 else 0
    return Asked(id_length, read_format, sample_type, branch_sample_type >> 17 & 1, user, interrupt)


def text(stream, order, limit, attr=None):
    """The text of a run, and the program's status."""
    reader, lines, asked = Reader(stream, order), [], Asked(0, 0, 0, 0, 0, 0)
    if attr:
        try:
            asked = attribute(reader)
        except Refused as refused:
            return "attr refused %s\n" % refused, 2
    end = "limit"
    while len(lines) < int(limit):
        if len(reader.left) < 8:
            end = "cut" if reader.left else "done"
            break
        type_, misc, size = reader.number(4), reader.number(2), reader.number(2)
        try:
            if size < 8:
                raise Refused("InvalidRecord")
            if size - 8 > len(reader.left):
                reader.rest()
                raise Refused("Eof")
            body = reader.take(size - 8)
            own_id = 0 if type_ == 9 or type_ >= 64 else asked.id_length
            if own_id > len(body):
                raise Refused("InvalidRecord")
            said = answer(type_, misc, asked, body[: len(body) - own_id], order)
        except Refused as refused:
            said = "refused %s" % refused
        lines.append("%d %d %d %d %s" % (len(lines), type_, misc, size, said))
    refused = end == "cut" or any(" refused " in line for line in lines)
    return "".join(line + "\n" for line in lines + ["end " + end]), int(refused)
