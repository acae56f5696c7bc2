//! Prints how many samples were lost.

use perf_event_data::endian::Little;
use perf_event_data::parse::{ParseConfig, ParseError, Parser};
use perf_event_data::Record;

fn main() -> Result<(), ParseError> {
    // A LOST_SAMPLES record: eight samples were lost.
    let data: &[u8] = &[13, 0, 0, 0, 0, 0, 16, 0, 8, 0, 0, 0, 0, 0, 0, 0];
    let mut parser = Parser::new(data, ParseConfig::<Little>::default());
    if let Record::LostSamples(record) = parser.parse()? {
        println!("{} lost", record.lost);
    }
    Ok(())
}
