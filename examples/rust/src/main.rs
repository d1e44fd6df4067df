use rainbow::{lent, lent::Refusal, machine::Machine, mending, picture, records};

fn main() -> Result<(), Refusal> {
    let machine = Machine::power_up();
    let mut shared = [0; lent::SHARED_BYTES];
    let mut screen = [0; lent::SCREEN_BYTES];
    let mut attribute = [0; lent::ATTRIBUTE_BYTES];
    let mut picture = [0; lent::PICTURE_BYTES];
    screen[..8].copy_from_slice(b"BERTA\xFF\x00\x01"); // FF, then the next row's start
    let drawing = picture::draw(machine, &screen, &attribute, &mut picture)?;
    println!("row 0 is {}, {} bytes read", row_0(&picture), drawing.reads);

    let mut store = |address, byte| {
        let (screen, attribute) = (&mut screen, &mut attribute);
        mending::store_with_picture(machine, &mut shared, screen, attribute, &mut picture, address, byte)
    };
    let marks = store(0xEE004, b'H')?; // the picture is mended
    let refused = store(0xF0000, b'H');
    println!("row 0 is {}, marks {marks:07X}", row_0(&picture));
    if let Err(refusal) = refused {
        println!("refused by {}", refusal.number());
    }
    Ok(())
}

/// The characters of the first record.
fn row_0(picture: &[u8]) -> String {
    let cells = usize::from(picture[records::COUNT_AT]);
    let pairs = picture[records::HEAD_BYTES..].chunks(2);
    pairs.take(cells).map(|pair| char::from(pair[0])).collect()
}
