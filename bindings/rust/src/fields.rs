// The types of records and their fields. The tests have them from here too.

/// Passes the types to a macro, all at once: the variant of `Record`, with what it has, the method of
/// `Visitor`, and the number.
macro_rules! each_type {
    ($call:ident) => {
        $call! {
            // made of fields.txt by fields.py
            Mmap(Mmap<'a>) visit_mmap PERF_RECORD_MMAP = 1;
            Lost(Lost) visit_lost PERF_RECORD_LOST = 2;
            Comm(Comm<'a>) visit_comm PERF_RECORD_COMM = 3;
            Exit(Exit) visit_exit PERF_RECORD_EXIT = 4;
            Throttle(Throttle) visit_throttle PERF_RECORD_THROTTLE = 5;
            Unthrottle(Throttle) visit_unthrottle PERF_RECORD_UNTHROTTLE = 6;
            Fork(Exit) visit_fork PERF_RECORD_FORK = 7;
            Read(Read) visit_read PERF_RECORD_READ = 8;
            Sample(Sample<'a>) visit_sample PERF_RECORD_SAMPLE = 9;
            Mmap2(Mmap2<'a>) visit_mmap2 PERF_RECORD_MMAP2 = 10;
            Aux(Aux) visit_aux PERF_RECORD_AUX = 11;
            ITraceStart(ITraceStart) visit_itrace_start PERF_RECORD_ITRACE_START = 12;
            LostSamples(LostSamples) visit_lost_samples PERF_RECORD_LOST_SAMPLES = 13;
            SwitchCpuWide(SwitchCpuWide) visit_switch_cpu_wide PERF_RECORD_SWITCH_CPU_WIDE = 15;
            Namespaces(Namespaces<'a>) visit_namespaces PERF_RECORD_NAMESPACES = 16;
            KSymbol(KSymbol<'a>) visit_ksymbol PERF_RECORD_KSYMBOL = 17;
            BpfEvent(BpfEvent) visit_bpf_event PERF_RECORD_BPF_EVENT = 18;
            CGroup(CGroup<'a>) visit_cgroup PERF_RECORD_CGROUP = 19;
            TextPoke(TextPoke<'a>) visit_text_poke PERF_RECORD_TEXT_POKE = 20;
            AuxOutputHwId(AuxOutputHwId) visit_aux_output_hw_id PERF_RECORD_AUX_OUTPUT_HW_ID = 21;
            // up to here
        }
    };
}

/// Passes each record to a macro: whether its values are fields, calls, or some of both, and their
/// names in the order of its text. A field has its place in a flat frame, among the numbers or the
/// spans. What follows `as` is how `{:?}` prints it.
#[rustfmt::skip]
macro_rules! each_record {
    ($call:ident) => {
        // made of fields.txt by fields.py
        $call! { fields Mmap<'a> { pid: 0, tid: 1, addr: 2 as HexAddr, len: 3, pgoff: 4,
            filename: 0 as ByteStr, } }
        $call! { fields Lost { id: 0, lost: 1, } }
        $call! { fields Comm<'a> { pid: 0, tid: 1, comm: 0 as ByteStr, } }
        $call! { fields Exit { pid: 0, ppid: 1, tid: 2, ptid: 3, time: 4, } }
        $call! { fields Throttle { time: 0, id: 1, stream_id: 2, } }
        $call! { calls Sample<'a> { ip: (), pid: (), tid: (), time: (), addr: () as HexAddr, id: (),
            stream_id: (), cpu: (), period: (), values: (), callchain: (), raw: (),
            lbr_hw_index: (), lbr: (), regs_user: (), stack_user: (), weight: (), data_src: (),
            transaction: (), regs_intr: (), phys_addr: () as HexAddr, aux: (), cgroup: (),
            data_page_size: (), code_page_size: (), } }
        $call! { some Mmap2<'a> { pid: 0, tid: 1, addr: 2 as HexAddr, len: 3, pgoff: 4, maj: (),
            min: (), ino: (), ino_generation: (), build_id: () as HexStr, prot: 5, flags: 6,
            filename: 0 as ByteStr, } }
        $call! { fields Aux { aux_offset: 0, aux_size: 1, flags: 2, } }
        $call! { fields ITraceStart { pid: 0, tid: 1, } }
        $call! { fields LostSamples { lost: 0, } }
        $call! { fields Namespaces<'a> { pid: 0, tid: 1, namespaces: 0, } }
        $call! { fields KSymbol<'a> { addr: 0 as HexAddr, len: 1, ksym_type: 2, flags: 3,
            name: 0 as ByteStr, } }
        $call! { fields BpfEvent { ty: 0, flags: 1, id: 2, tag: 0, } }
        $call! { fields CGroup<'a> { id: 0, path: 0 as ByteStr, } }
        $call! { fields TextPoke<'a> { addr: 0 as HexAddr, old_bytes: 0, new_bytes: 1, } }
        $call! { fields AuxOutputHwId { hw_id: 0, } }
        $call! { calls SampleId { pid: (), tid: (), time: (), id: (), stream_id: (), cpu: (), } }
        // up to here
    };
}
