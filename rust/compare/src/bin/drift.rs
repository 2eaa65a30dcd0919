//! The running discrepancy over one row, for the picture: with the symbol of each byte cached from discrepancy 0, and with ours. Prints a line for
//! each byte: its index, the first and the second.
fn main() {
    let row: Vec<u8> = (0..640).map(|x: u32| (x * 255 / 639) as u8).collect();
    let mut symbols = vec![0; 2 * row.len()];
    chaffrail::encode_row(0, &row, &mut symbols).unwrap();
    let (mut cached, mut ours) = (0i32, 0i32);
    for (i, b) in row.iter().enumerate() {
        cached += chaffrail::encode_symbol(0, *b).unwrap().0.count_ones() as i32 - 5;
        ours += u16::from_le_bytes([symbols[2 * i], symbols[2 * i + 1]]).count_ones() as i32 - 5;
        println!("{i} {cached} {ours}");
    }
}
