//! The original beside ours at scale: the same inputs, every output compared; and beyond the original's domain every damaged input gets its
//! refusal and changes nothing. A differing input is printed; the exit status says whether all agreed.
mod audio;
mod counter;
mod islands;
mod lines;
mod packets;
mod reader;
mod rows;
mod symbols;
mod tally;

use compare::Random;
use std::process::ExitCode;

fn main() -> ExitCode {
    let mut t = tally::Tally::default();
    let mut random = Random::new(0xfeed_beef_1234_5671);
    symbols::symbols(&mut t);
    symbols::pairs(&mut t);
    rows::rows(&mut t, &mut random);
    rows::long_rows(&mut t);
    packets::parities(&mut t, &mut random);
    packets::clocks(&mut t, &mut random);
    packets::audio_info(&mut t, &mut random);
    packets::avi(&mut t);
    audio::audio(&mut t, &mut random);
    audio::refusals(&mut t);
    islands::terc4(&mut t);
    islands::islands(&mut t, &mut random);
    reader::islands_read(&mut t, &mut random);
    reader::lengths(&mut t);
    lines::timings(&mut t);
    lines::sync_words(&mut t, &mut random);
    lines::commands(&mut t);
    lines::sync_lines(&mut t, &mut random);
    lines::island_lines(&mut t, &mut random);
    counter::frames(&mut t, &mut random);
    counter::refusals(&mut t);
    println!("compared: {}, different: {}", t.compared, t.wrong);
    if t.wrong == 0 {
        ExitCode::SUCCESS
    } else {
        ExitCode::FAILURE
    }
}
