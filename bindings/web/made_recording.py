"""Makes a file as `perf record` writes it, of a build by `make -j4` that never was, and the symbols of its programs: so
the tests of the page have a recording with many threads, call chains, switches and two events."""
import random
import struct

BASE = 81_000_000_000_000
IP, TID, TIME, CHAIN, CPU, PERIOD, IDENTIFIER = 1, 2, 4, 1 << 5, 1 << 7, 1 << 8, 1 << 16
KERNEL, USER = 2**64 - 128, 2**64 - 512
CPUS = 4
# Who calls whom, by file: a name, and the functions below it.
CALLS = {
    "cc1": ("main", [("toplev::main", [("compile_file", [
        ("c_parse_file", [
            ("c_parser_declaration_or_fndef", [("c_parser_compound_statement", [
                ("c_parser_statement", [("c_parser_expression", [
                    ("build_binary_op", []), ("libc:malloc", [("libc:_int_malloc", [])])])]),
                ("c_parser_if_statement", [("c_parser_condition", [])])])]),
            ("cpp_get_token", [("_cpp_lex_direct", [("lex_identifier", [])]), ("enter_macro_context", [])])]),
        ("symbol_table::compile", [("expand_all_functions", [("execute_pass_list", [("execute_one_pass", [
            ("rest_of_handle_ira", [("ira", [("ira_build", []), ("ira_color", [])])]),
            ("rest_of_handle_df", [("df_analyze", [("df_worklist_dataflow", [])])]),
            ("execute_cse", [("cse_main", [("hash_rtx", [])])]),
            ("rest_of_handle_sched", [("schedule_insns", [("schedule_block", [])])]),
            ("tree_ssa_dominator_optimize", [("dom_walker::walk", []), ("libc:memset", [])])])])])])])])]),
    "make": ("main", [("update_goals", [("update_file", [
        ("check_dep", [("file_exists_p", [("kernel:vfs_statx", [])])]),
        ("remake_file", [("start_job_command", [("kernel:do_fork", [])])])])])]),
    "as": ("main", [("perform_an_assembly_pass", [("read_a_source_file", [
        ("md_assemble", [("parse_insn", []), ("output_insn", [])])])])]),
    "ld": ("main", [("lang_process", [
        ("lang_map_input", [("bfd_elf_link_add_symbols", [("bfd_hash_lookup", [])])]),
        ("ldwrite", [("bfd_final_link", [
            ("elf_link_input_bfd", [("libc:memcpy", [])]),
            ("kernel:vfs_write", [("kernel:ext4_buffered_write", [])])])])])]),
}
FAULT = ["asm_exc_page_fault", "exc_page_fault", "handle_mm_fault", "do_anonymous_page", "clear_page_erms"]
SYSCALL = ["entry_SYSCALL_64_after_hwframe", "do_syscall_64"]
PATHS = {"cc1": "/usr/libexec/gcc/x86_64-linux-gnu/13/cc1", "make": "/usr/bin/make", "as": "/usr/bin/as",
         "ld": "/usr/bin/ld", "libc": "/usr/lib/x86_64-linux-gnu/libc.so.6"}
COMMAND = ["/usr/bin/perf", "record", "-g", "--switch-events", "-e", "cpu-clock,page-faults", "--", "make", "-j4"]


def pack(form, *numbers):
    return struct.pack("<" + form, *numbers)


def frame(kind, misc, body):
    return pack("IHH", kind, misc, 8 + len(body)) + body


def padded(text):
    return text.encode() + b"\0" * (8 - len(text.encode()) % 8)


class Recording:
    """Frames with their times, and the places of functions."""

    def __init__(self, seed=1):
        self.random = random.Random(seed)
        self.frames = []
        self.functions = {}
        # where a program's calls are, which are looked up for each sample
        self.places = {}
        for name, (root, below) in CALLS.items():
            self.place(name, root, below)
        for name in FAULT + SYSCALL:
            self.at("kernel", name)

    def at(self, file, name):
        places = self.functions.setdefault(file, {})
        first = 0xffffffff81000000 if file == "kernel" else 0x1000
        return places.setdefault(name, first + 0x400 * len(places))

    def place(self, file, name, below):
        owner, _, own = name.partition(":") if name.split(":")[0] in ("libc", "kernel") else (file, "", name)
        self.at(owner, own)
        for part in below:
            self.place(file, *part)

    def symbols(self, file):
        """The text of `nm -C` of a file, or of kallsyms."""
        return "".join(f"{at:016x} T {name}\n" for name, at in self.functions[file].items())

    def put(self, time, task, cpu, kind, misc, body, event=0):
        """A frame with a sample id, whose numbers may overwrite those of another one."""
        sample_id = pack("IIQIIQ", *task, BASE + time, cpu, 0, 16 + event * CPUS + cpu)
        self.frames.append((time, len(self.frames), frame(kind, misc, body + sample_id)))

    def stack(self, program):
        """One way down the calls of a program, and the part of it in the kernel."""
        name, below = CALLS[program]
        names = []
        while True:
            names.append(name)
            if not below or len(names) > 6 and self.random.random() < 0.25:
                break
            name, below = below[min(len(below) - 1, int(self.random.expovariate(1.1)))]
        user = [name for name in names if not name.startswith("kernel:")]
        kernel = [name[7:] for name in names if name.startswith("kernel:")]
        return user, SYSCALL + kernel if kernel else []

    def address(self, program, name):
        place = self.places.get((program, name))
        if place is None:
            file, _, own = name.partition(":") if name.startswith("libc:") else (program, "", name)
            place = (0x7f0000000000 if file == "libc" else 0x400000) + self.at(file, own)
            self.places[program, name] = place
        return place + self.random.choice((4, 4, 0x10, 0x7c))

    def sample(self, time, task, cpu, program, event=0):
        user, kernel = self.stack(program)
        if event:
            kernel = FAULT
        places = [KERNEL] + [self.at("kernel", name) + 8 for name in reversed(kernel)] if kernel else []
        places += [USER] + [self.address(program, name) for name in reversed(user)]
        period = self.random.randrange(1, 30) if event else 250_000
        body = pack("QQIIQIIQ", 16 + event * CPUS + cpu, places[1], *task, BASE + time, cpu, 0, period)
        body += pack(f"Q{len(places)}Q", len(places), *places)
        self.frames.append((time, len(self.frames), frame(9, 1 if kernel else 2, body)))

    def start(self, time, task, parent, cpu, program):
        """A process that runs a program, as a shell makes it."""
        self.put(time, parent, cpu, 7, 0, pack("IIIIQ", task[0], parent[0], task[1], parent[1], BASE + time))
        self.put(time + 300_000, task, cpu, 3, 0x2000, pack("II", *task) + padded(program))
        for file, at in ((program, 0x400000), ("libc", 0x7f0000000000)):
            body = pack("IIQQQIIQQII", *task, at, 0x200000, 0, 254, 0, 40, 0, 5, 2) + padded(PATHS[file])
            self.put(time + 400_000, task, cpu, 10, 2, body)

    def thread(self, time, task, parent, cpu, name):
        self.put(time, parent, cpu, 7, 0, pack("IIIIQ", task[0], parent[0], task[1], parent[1], BASE + time))
        self.put(time + 50_000, task, cpu, 3, 0, pack("II", *task) + padded(name))

    def run(self, time, length, task, cpu, program):
        """Runs a task in slices with switches, and returns when it ends."""
        end = time + length
        while time < end:
            stop = min(end, time + self.random.randrange(3_000_000, 16_000_000))
            self.put(time, task, cpu, 14, 0, b"")
            for at in range(time + 250_000, stop, 250_000):
                self.sample(at, task, cpu, program)
                if self.random.random() < 0.12:
                    self.sample(at + 60_000, task, cpu, program, 1)
            self.put(stop, task, cpu, 14, 0x2000, b"")
            time = stop + self.random.randrange(100_000, 2_500_000)
        return time

    def exit(self, time, task, parent, cpu):
        self.put(time, task, cpu, 4, 0, pack("IIIIQ", task[0], parent[0], task[1], parent[0], BASE + time))


def attribute(config, period):
    flags = 1 << 18 | 1 << 26 | 1 << 8 | 1 << 9 | 1 << 10 | 1 << 13 | 1 << 23 | 1 << 24
    sample = IP | TID | TIME | CHAIN | CPU | PERIOD | IDENTIFIER
    return pack("IIQQQQQ", 1, 128, config, period, sample, 4, flags).ljust(128, b"\0")


def ids_of(event):
    return pack("4Q", *(16 + event * CPUS + cpu for cpu in range(CPUS)))


def text_of(words):
    return pack("I", 64) + words.encode().ljust(64, b"\0")


def features(attributes, names, host):
    """Those of perf.data that the page shows: host, kernel, version, command line, events."""
    described = b"".join(one + pack("I", CPUS) + text_of(name) + ids_of(event)
                         for event, (one, name) in enumerate(zip(attributes, names)))
    return {3: text_of(host), 4: text_of("6.18.44-generic"), 5: text_of("6.1.187"), 6: text_of("x86_64"),
            11: pack("I", len(COMMAND)) + b"".join(map(text_of, COMMAND)), 12: pack("II", 2, 128) + described}


def file_of(frames, names=("cpu-clock", "page-faults"), host="builder"):
    """The bytes of a perf.data with these frames."""
    attributes = [attribute(0, 4000), attribute(2, 4000)]
    ids = b"".join(map(ids_of, range(2)))
    entries = b"".join(one + pack("QQ", 104 + 32 * event, 32) for event, one in enumerate(attributes))
    data = b"".join(frames)
    at = 104 + len(ids)
    parts = features(attributes, names, host)
    bits = sum(1 << bit for bit in parts).to_bytes(32, "little")
    head = b"PERFILE2" + pack("8Q", 104, 144, at, len(entries), at + len(entries), len(data), 0, 0) + bits
    place = at + len(entries) + len(data) + 16 * len(parts)
    table = b""
    for part in parts.values():
        table += pack("QQ", place, len(part))
        place += len(part)
    return head + ids + entries + data + table + b"".join(parts.values())


def build(seed=1, jobs=26):
    """A recording of a build: `make`, which starts compilers and assemblers, and a linker with threads at the end."""
    made = Recording(seed)
    make = (2100, 2100)
    made.start(0, make, (2000, 2000), 0, "make")
    free = [made.run(1_000_000, 6_000_000, make, 0, "make")] + [9_000_000 + 700_000 * cpu for cpu in range(1, CPUS)]
    for job in range(jobs):
        cpu = free.index(min(free))
        steps = (("cc1", made.random.randrange(30_000_000, 130_000_000)), ("as", 9_000_000))
        for step, (program, length) in enumerate(steps):
            task = (2110 + 10 * job + step,) * 2
            made.start(free[cpu], task, make, cpu, program)
            end = made.run(free[cpu] + 500_000, length, task, cpu, program)
            made.exit(end, task, make, cpu)
            free[cpu] = end + 400_000
    first, linker = max(free), (2110 + 10 * jobs,) * 2
    made.start(first, linker, make, 0, "ld")
    for cpu in range(1, CPUS):
        made.thread(first + 600_000, (linker[0], linker[0] + cpu), linker, cpu, f"ld-worker-{cpu}")
    for cpu in range(CPUS):
        made.run(first + 900_000, 60_000_000 + 9_000_000 * cpu, (linker[0], linker[0] + cpu), cpu, "ld")
    made.exit(first + 120_000_000, linker, make, 0)
    made.put(first + 121_000_000, make, 0, 13, 0, pack("Q", 7))
    return made


def bytes_of(made, **words):
    return file_of([one for _, _, one in sorted(made.frames)], **words)
