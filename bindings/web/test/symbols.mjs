// Names of places, by files of symbols and by KSYMBOL records.

import { folded, messageOf, opened, same } from "./harness.mjs";
import { fileOf, ksymbol, mmap2, sample } from "./made.mjs";

const NM = `                 U malloc@GLIBC_2.2.5
0000000000001000 T first
0000000000001010 t operator new(unsigned long)
0000000000001010 T alias
0000000000001020 0000000000000008 T sized(int, char const*)
0000000000001040 W weak@@LIB_2.2.5
0000000000002000 D data
`;
const KALLSYMS = `ffffffff81000000 T _text
ffffffff81000100 t do_one
ffffffff81000200 T do_two
ffffffffc0000000 t in_module\t[nf_tables]
`;
const kernel = (address) => ({ chain: [-128n, address] });

async function modelOf(...samples) {
    return opened(fileOf([
        mmap2({ pid: 1, time: 1, address: 0x7f0000001000n, length: 0x4000n, offset: 0x1000n,
            name: "/usr/lib/liba.so" }),
        mmap2({ pid: 1, time: 1, address: 0x401000n, length: 0x1000n, offset: 0x1000n, name: "/usr/bin/fixed" }),
        mmap2({ pid: 1, time: 1, address: 0x500000n, length: 0x1000n, name: "//anon" }),
        ...samples.map((it, place) => sample({ pid: 1, time: 2 + place, ...it })),
    ]));
}

const at = (offset) => ({ chain: [0x7f0000000000n + offset] });

export async function nameOffsets() {
    const model = await modelOf(at(0x1000n), at(0x100fn), at(0x1010n), at(0x1027n), at(0x1028n), at(0x1041n),
        kernel(-0x7efffe01n));
    const before = await folded(model);
    same("symbols of a file", (await model.call("symbols", { text: NM, file: "liba.so.nm" })).count, 5);
    same("names in a file", await folded(model), [":1;0xffffffff810001ff_[k] 1", ":1;first 2", ":1;liba.so+0x1028 1",
        ":1;operator new(unsigned long) 1", ":1;sized(int, char const*) 1", ":1;weak 1"].sort());
    same("before there were symbols", before.length, 7);
    same("symbols of files", await Promise.all(["liba.so", "libb.so"].map(async (file) => {
        const { count, isUsed } = await model.call("symbols", { text: NM, file });
        return `${count} ${isUsed}`;
    })), ["5 true", "5 false"]);
    same("addresses that are hidden", await messageOf(model.call("symbols", { text: "0000000000000000 T _text\n" })),
        "all addresses are 0: copy /proc/kallsyms as root");
    same("no symbols", (await model.call("symbols", { text: "no\nsymbols\n", file: "liba.so" })).count, 0);
    const { nodes } = await model.call("flame", { filter: {}, inverted: true });
    same("names in an inverted graph", [...nodes.of].map((name, node) => [nodes.name[name],
        nodes.worth[node]].join(" ")).includes("first 2"), true);
    const { rows } = await model.call("records", { filter: {}, kind: "sample", text: "operator" });
    same("names in rows", rows.map((it) => it.summary), ["operator new(unsigned long)"]);
}

export async function nameKernel() {
    const model = await modelOf(kernel(-0x7f000000n), kernel(-0x7efffe01n), kernel(-0x7efffe00n), kernel(-0x3ffffff0n),
        kernel(-0x3f000000n));
    same("symbols of the kernel", (await model.call("symbols", { text: KALLSYMS, file: "kallsyms" })).count, 4);
    same("names in the kernel", await folded(model),
        [":1;_text_[k] 1", ":1;do_one_[k] 1", ":1;do_two_[k] 1", ":1;in_module_[k] 1",
        ":1;0xffffffffc1000000_[k] 1"].sort());
}

export async function nameFixed() {
    const model = await modelOf({ chain: [0x401104n] }, { chain: [0x500010n] });
    await model.call("symbols", { text: "0000000000401100 T main\n0000000000401200 T next\n", file: "fixed" });
    same("a program at a place of its own", await folded(model), [":1;main 1", ":1;perf-1.map+0x500010 1"].sort());
    // Of a file that lld linked, with an address that is 0x1000 above the offset.
    const parts = `  LOAD           0x000000 0x0000000000000000 0x0000000000000000 0x000628 0x000628 R   0x1000
  LOAD           0x001000 0x0000000000002000 0x0000000000002000 0x000195 0x000195 R E 0x1000
`;
    const other = await modelOf(at(0x1010n));
    await other.call("symbols", { text: `0000000000001000 T wrong\n0000000000002000 T right\n${parts}`,
        file: "liba.so" });
    same("addresses that are not offsets", await folded(other), [":1;right 1"]);
    await model.call("symbols", { text: "500000 20 Lcom/Example;::run\n", file: "perf-1.map" });
    same("a map of a compiler", await folded(model), [":1;main 1", ":1;Lcom/Example_::run 1"].sort());
}

export async function nameByRecords() {
    const program = { address: 0xffffffffc0000000n, length: 0x100, name: "bpf_prog_6deef7357e7b4530" };
    const inside = kernel(-0x3fffff81n);
    const at = [[2, kernel(-0x3fffff00n)], [3, inside], [6, inside], [9, kernel(-0x40000000n)], [12, inside]];
    const model = await opened(fileOf([
        ksymbol({ pid: 1, time: 5, ...program }),
        ksymbol({ pid: 1, time: 8, ...program, length: 0x80, name: "bpf;new" }),
        ksymbol({ pid: 1, time: 11, ...program, flags: 1 }),
        ksymbol({ pid: 1, time: 1, ...program, length: 0, name: "nothing" }),
        ...at.map(([time, it]) => sample({ pid: 1, time, ...it })),
        sample({ pid: 1, time: 9, chain: [-512n, 0xffffffffc0000000n] }),
    ]));
    same("names by KSYMBOL are not those of fold", await folded(model), [":1;0xffffffffc0000000_[k] 1",
        ":1;0xffffffffc000007f_[k] 3", ":1;0xffffffffc0000100_[k] 1", ":1;[unknown] 1"]);
    await model.call("symbols", { text: KALLSYMS, file: "kallsyms" });
    same("but go with those of kallsyms", await folded(model), [":1;[unknown] 1", ":1;bpf_new_[k] 1",
        ":1;bpf_prog_6deef7357e7b4530_[k] 1", ":1;in_module_[k] 3"].sort());
}
