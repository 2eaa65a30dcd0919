//! The original and ours in one run, on the same distinct inputs, every output compared. Prints a table in markdown, the ratio first.
mod lines;
mod packets;
mod rows;
mod turns;

use compare::Random;

fn main() {
    let mut random = Random::new(0x1234_5678_9abc_def1);
    println!("| original / ours | what | original | ours | |\n|---|---|---|---|---|");
    rows::tables(&mut random);
    packets::symbols(&mut random);
    packets::packets(&mut random);
    packets::islands(&mut random);
    lines::lines(&mut random);
    println!();
    rows::lengths(&mut random);
}
