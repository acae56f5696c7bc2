//! Counts the samples of a file of `perf record` by task and event, in order of time.
use perf_event_data::file::{Owner, Recording};
use perf_event_data::Record;

fn main() -> Result<(), Box<dyn std::error::Error>> {
    let bytes = std::fs::read(std::env::args().nth(1).ok_or("which file?")?)?;
    let recording = Recording::open(&bytes)?;
    let mut counts = std::collections::BTreeMap::new();
    for entry in recording.in_order() {
        let frame = recording.frame_at(&entry).ok_or("no frame")?;
        if let (Owner::Event(event), Ok(Record::Sample(sample))) = (entry.owner(), frame.record()) {
            *counts.entry((sample.tid(), event)).or_insert(0) += 1;
        }
    }
    for ((tid, event), count) in counts {
        println!("task {}, event {event}: {count}", tid.unwrap_or(0));
    }
    Ok(())
}
