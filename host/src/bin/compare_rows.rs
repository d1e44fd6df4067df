//! Runs the row lister on many screens and compares what it prints, and tells on standard error, with the model.
//! usage: compare_rows LISTER [SCREENS]
use host::chain::{listing, listing_told};
use host::hard::{memories, written, Chance};
use std::process::exit;

fn input(chance: &mut Chance) -> Vec<u8> {
    let mut bytes = memories(chance);
    if chance.below(12) == 0 {
        let lengths = [
            0, 1, 2, 81, 4095, 4096, 4097, 8190, 8191, 8193, 8194, 12288, 16384, 70000,
        ];
        bytes.resize(chance.of(&lengths), 0x41);
    }
    bytes
}

/// The first inputs: 00s and FFs, of the right length and of others.
fn plain(screen: usize) -> Option<Vec<u8>> {
    let lengths = [8192, 0, 1, 4095, 4096, 4097, 8191, 8193];
    let length = lengths.get(screen / 2)?;
    Some(vec![if screen % 2 == 0 { 0x00 } else { 0xFF }; *length])
}

fn main() -> std::io::Result<()> {
    let words: Vec<String> = std::env::args().skip(1).collect();
    let screens = words.get(1).map_or(Some(5000), |n| n.parse().ok());
    let (lister, screens) = match (words.first(), screens) {
        (Some(lister), Some(screens)) => (lister, screens),
        _ => {
            eprintln!("usage: compare_rows LISTER [SCREENS]");
            exit(2);
        }
    };
    let mut chance = Chance(0x9E3779B97F4A7C15);
    let (mut torn, mut whole, mut refused, mut wild) = (0, 0, 0, 0);
    for screen in 0..screens {
        let input = plain(screen).unwrap_or_else(|| input(&mut chance));
        let (wanted, wanted_told) = (listing(&input), listing_told(&input));
        let (text, told) = written(lister, &[], &input, &mut chance)?;
        if text != wanted.as_bytes() || told != wanted_told {
            std::fs::write("differs.bin", &input)?;
            println!("screen {screen} differs; its input is in differs.bin");
            println!(
                "wanted:\n{wanted}{wanted_told}printed:\n{}{told}",
                String::from_utf8_lossy(&text)
            );
            exit(1);
        }
        wild += usize::from(!told.is_empty());
        match &wanted {
            text if text.starts_with("refused") => refused += 1,
            text if text.contains("torn") => torn += 1,
            _ => whole += 1,
        }
    }
    println!(
        "{screens} screens, no difference: {whole} whole, {torn} with a torn row, {refused} refused; {wild} with a \
         wild link"
    );
    Ok(())
}
