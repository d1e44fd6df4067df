//! Document 01, "Dots": the part of the glyph table that is a code's, and a scan line; and the picture of the
//! whole tube, by the list of its lines.
use crate::chain::{draw, COUNT_AT, DARK, KIND_AT, PAIRS_AT, PICTURE, RECORD, ROWS};
use crate::machine::Machine;
use crate::screen::{list_lines, LINES, LIST};
use crate::Answer;

pub const GLYPHS: usize = 4096;
pub const LINE: usize = 1188;
pub const SCANS: usize = 10;
pub const UNDERLINE_SCAN: usize = 9;

/// The sixteen scan bytes of a code, in the order of their addresses.
pub fn part(table: &[u8], code: u8) -> Answer<&[u8]> {
    if table.len() != GLYPHS {
        return Err(1);
    }
    Ok(&table[usize::from(code) * 16..][..16])
}

/// The address of a scan number: 1 to 10 have F, 0, 1, up to 8.
pub fn address(scan: usize) -> usize {
    match scan {
        1 => 0xF,
        _ => scan - 2,
    }
}

/// The glyph scan that a row of a kind shows at a screen scan.
fn glyph_scan(kind: u8, scan: usize) -> usize {
    let half = scan / 2 + scan % 2;
    match kind & 3 {
        0 => half + 5,
        1 => half,
        _ => scan,
    }
}

/// How many dots a cell has, the repeats of its last dot with them.
fn cell_dots(machine: &Machine) -> usize {
    match machine.columns {
        80 => 10,
        _ => 9,
    }
}

/// How many dots a line has.
pub fn line_dots(machine: &Machine) -> usize {
    usize::from(machine.columns) * cell_dots(machine)
}

/// The dot at x in the line of a record that is not dark. A wide kind has reached only half as far into
/// its cells. Of the kind only bits 1 and 0 matter here, of an attribute only its low four.
fn dot(machine: &Machine, record: &[u8], table: &[u8], scan: usize, x: usize) -> u8 {
    let kind = record[KIND_AT];
    let across = if kind & 3 == 3 { x } else { x / 2 };
    let (cell, dot) = (across / cell_dots(machine), across % cell_dots(machine));
    let pair = &record[PAIRS_AT + 2 * cell..][..2];
    let (code, attribute) = (pair[0], pair[1]);
    let has = |bit: u8| attribute >> bit & 1 == 1;
    let (reverse, bold, blink, underline) = (has(0), !has(1), !has(2), !has(3));

    let scan = glyph_scan(kind, scan);
    let glyph = table[usize::from(code) * 16 + address(scan)];
    let drawn = glyph >> (7 - dot.min(7)) & 1 == 1;
    let lit = (drawn || underline && scan == UNDERLINE_SCAN) ^ reverse ^ machine.reverse;
    match lit {
        true => 2 + u8::from(bold) - u8::from(blink && machine.blink),
        false => 0,
    }
}

/// Writes all bytes of a line. A refused call changes none.
pub fn scan_line(
    machine: &Machine,
    picture: &[u8],
    table: &[u8],
    row: usize,
    scan: usize,
    line: &mut [u8],
) -> Answer<()> {
    if (picture.len(), table.len(), line.len()) != (PICTURE, GLYPHS, LINE) {
        return Err(1);
    }
    if row >= ROWS || !(1..=SCANS).contains(&scan) {
        return Err(5);
    }
    let record = &picture[row * RECORD..][..RECORD];
    let nothing = machine.blanked() || machine.graphics() || record[COUNT_AT] == DARK;
    for (x, byte) in line.iter_mut().enumerate() {
        *byte = if nothing || x >= line_dots(machine) {
            0
        } else {
            dot(machine, record, table, scan, x)
        };
    }
    Ok(())
}

/// What the tube shows of memories of the right lengths, at a latch of 0 to 9, as a PGM of four greys. Each line is
/// there twice, for a tube's dots are about twice as high as they are wide.
pub fn tube(machine: &Machine, screen: &[u8], attribute: &[u8], table: &[u8]) -> Vec<u8> {
    let drawn = draw(screen, attribute, machine.columns.into())
        .ok()
        .unwrap();
    let width = line_dots(machine);
    let mut list = [0; LIST];
    list_lines(machine, &drawn.picture, &mut list).unwrap();
    let mut pgm = format!("P5\n{width} {}\n3\n", LINES * 2).into_bytes();
    let mut line = [0; LINE];
    for shown in list.chunks(2) {
        let (row, scan) = (shown[0].into(), shown[1].into());
        scan_line(machine, &drawn.picture, table, row, scan, &mut line).unwrap();
        pgm.extend(line[..width].repeat(2));
    }
    pgm
}

#[cfg(test)]
mod tests {
    use super::*;
    use crate::chain::{PAIRS, PLACES};
    use crate::tube_sample::milking;

    const PLAIN: u8 = 0x0E;

    fn machine(columns: u16) -> Machine {
        Machine {
            columns,
            held: 0x02,
            ..Machine::power_up()
        }
    }

    /// A table whose code 41 has a byte at every scan number, and all other codes 00.
    fn table(byte: u8) -> Vec<u8> {
        let mut table = vec![0; GLYPHS];
        table[0x410..0x420].fill(byte);
        table
    }

    /// A picture whose row 0 is of a kind and shows code 41 and then blanks.
    fn picture(kind: u8, attribute: u8) -> Vec<u8> {
        let mut picture = [0x20, PLAIN].repeat(PICTURE / 2);
        picture[..6].copy_from_slice(&[0, 0, kind, 1, 0x41, attribute]);
        picture
    }

    fn line(machine: &Machine, picture: &[u8], table: &[u8], scan: usize) -> Vec<u8> {
        let mut line = vec![9; LINE];
        scan_line(machine, picture, table, 0, scan, &mut line).unwrap();
        line
    }

    /// The first dots of a line, as digits.
    fn first(line: &[u8], dots: usize) -> String {
        line[..dots].iter().map(u8::to_string).collect()
    }

    #[test]
    fn p10_last_dot_again() {
        for (columns, dots) in [(80, "20200202220"), (132, "2020020220")] {
            let line = line(&machine(columns), &picture(3, PLAIN), &table(0xA5), 1);
            assert_eq!(first(&line, dots.len()), dots);
        }
    }

    #[test]
    fn p11_halves() {
        let scans: Vec<_> = (1..=10).map(|scan| glyph_scan(1, scan)).collect();
        assert_eq!(scans, [1, 1, 2, 2, 3, 3, 4, 4, 5, 5]);
        let scans: Vec<_> = (1..=10).map(|scan| glyph_scan(0, scan)).collect();
        assert_eq!(scans, [6, 6, 7, 7, 8, 8, 9, 9, 10, 10]);
    }

    #[test]
    fn scans_have_addresses() {
        let addresses: Vec<_> = (1..=10).map(address).collect();
        assert_eq!(addresses, [15, 0, 1, 2, 3, 4, 5, 6, 7, 8]);
        let numbered: Vec<u8> = (0..GLYPHS).map(|place| place as u8 % 16).collect();
        assert_eq!(part(&numbered, 0xFF).unwrap()[15], 15);
        let shown = line(&machine(80), &picture(3, PLAIN), &numbered, 1);
        assert_eq!(first(&shown, 10), "0000222222");
        let shown = line(&machine(80), &picture(3, PLAIN), &numbered, 10);
        assert_eq!(first(&shown, 10), "0000200000");
    }

    #[test]
    fn underline_is_on_glyph_scan_nine_and_lights_the_fill() {
        let underlined = picture(3, 0x06);
        for scan in 1..=10 {
            let line = line(&machine(80), &underlined, &table(0x00), scan);
            let dots = if scan == UNDERLINE_SCAN {
                "222222222200"
            } else {
                "000000000000"
            };
            assert_eq!(first(&line, 12), dots);
        }
        for scan in 1..=10 {
            let line = line(&machine(80), &picture(0, 0x06), &table(0x00), scan);
            assert_eq!(line[19], if scan == 7 || scan == 8 { 2 } else { 0 });
            assert_eq!(line[20], 0);
        }
    }

    #[test]
    fn bold_and_blink_change_lit_dots_only() {
        let mut machine = machine(80);
        let shades = [(0x0E, "20", "20"), (0x0C, "30", "30"), (0x0A, "20", "10")];
        let both = [(0x08, "30", "20"), (0x09, "03", "02"), (0xF8, "30", "20")];
        for (attribute, clear, set) in shades.into_iter().chain(both) {
            for (blink, dots) in [(false, clear), (true, set)] {
                machine.blink = blink;
                let line = line(&machine, &picture(3, attribute), &table(0x80), 5);
                assert_eq!(first(&line, 2), dots);
            }
        }
    }

    #[test]
    fn reverse_field_lights_blank_pairs_and_no_dark_row() {
        let mut machine = machine(80);
        machine.reverse = true;
        let mut shown = picture(3, 0x0F);
        let bright = line(&machine, &shown, &table(0x80), 5);
        assert_eq!(first(&bright, 12), "200000000022");
        assert_eq!(bright[..800].iter().filter(|dot| **dot == 2).count(), 791);
        assert_eq!(bright[800..], [0; LINE - 800]);
        shown[COUNT_AT] = DARK;
        assert_eq!(line(&machine, &shown, &table(0x80), 5), [0; LINE]);
    }

    #[test]
    fn wide_kinds_show_each_dot_twice() {
        for kind in [0, 1, 2, 4, 5, 6, 0xF8] {
            let line = line(&machine(132), &picture(kind, PLAIN), &table(0xA5), 5);
            assert_eq!(first(&line, 20), "22002200002200222200");
        }
        let mut full = picture(2, PLAIN);
        full[PAIRS_AT..RECORD].copy_from_slice(&[0x41, PLAIN].repeat(PAIRS));
        assert_eq!(line(&machine(132), &full, &table(0xFF), 5), [2; LINE]);
    }

    #[test]
    fn nothing_is_shown_if_blanked_or_graphics() {
        for held in [0x00, 0x04, 0x06, 0xFD] {
            let machine = Machine {
                held,
                ..machine(80)
            };
            assert_eq!(line(&machine, &picture(3, 0x0F), &table(0), 5), [0; LINE]);
        }
    }

    #[test]
    fn refusals_change_nothing() {
        let cases = [
            (PICTURE - 1, GLYPHS, LINE, ROWS, 0, 1),
            (PICTURE, GLYPHS + 1, LINE, 0, 1, 1),
            (PICTURE, GLYPHS, LINE - 1, 0, 1, 1),
            (PICTURE, GLYPHS, LINE, ROWS, 1, 5),
            (PICTURE, GLYPHS, LINE, 0, 0, 5),
            (PICTURE, GLYPHS, LINE, ROWS - 1, SCANS + 1, 5),
        ];
        for (picture, table, length, row, scan, number) in cases {
            let (picture, table) = (vec![0; picture], vec![0; table]);
            let mut line = vec![9; length];
            let answer = scan_line(&machine(80), &picture, &table, row, scan, &mut line);
            assert_eq!(answer, Err(number));
            assert_eq!(line, vec![9; length]);
        }
        assert_eq!(part(&[0; GLYPHS - 1], 0), Err(1));
    }

    #[test]
    fn a_tube_has_every_line_twice() {
        let pgm = tube(
            &machine(132),
            &[0; PLACES],
            &[0; PLACES],
            &vec![0x80; GLYPHS],
        );
        let head = b"P5\n1188 480\n3\n";
        assert_eq!(&pgm[..head.len()], head);
        assert_eq!(pgm.len(), head.len() + 1188 * 480);
    }

    /// 02, ticket 5: on the page whose rows 7 to 24 scroll, the rows above stand still, and the others move up by as
    /// many lines as the latch says.
    #[test]
    fn a_tube_scrolls_by_the_latch() {
        let memories = milking().unwrap();
        let (screen, rest) = memories.split_at(PLACES);
        let (attribute, table) = rest.split_at(PLACES);
        let lines = |latch: u8| -> Vec<Vec<u8>> {
            let machine = Machine {
                latch,
                ..machine(80)
            };
            let pgm = tube(&machine, screen, attribute, table);
            let dots = &pgm[b"P5\n800 480\n3\n".len()..];
            dots.chunks(2 * 800).map(<[u8]>::to_vec).collect()
        };
        let at_rest = lines(0);
        for latch in 1..10 {
            let moved = lines(latch);
            let latch = usize::from(latch);
            assert_eq!(moved[..70], at_rest[..70]);
            assert_eq!(moved[70..240 - latch], at_rest[70 + latch..]);
            assert_eq!(moved.len(), 240);
        }
    }
}
