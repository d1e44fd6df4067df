//! Scan lines of pictures of any bytes, at every setting, and the lists of their lines.
use super::{Script, RECORD, ROWS};

pub fn script() -> Script {
    let mut script = Script::new(
        0,
        "SCAN LINES of pictures of any bytes, over strewn glyph tables. The part of every code. The lines of the whole \
         screen at latches 1 to 8.",
    );
    script.line("strew glyphs 500 8 256");
    for code in 0..256 {
        script.line(&format!("glyph {code:02X}"));
    }
    for setting in 0..8 {
        let (columns, reverse, blink) =
            ([80, 132][setting % 2], setting & 2 != 0, setting & 4 != 0);
        script.remark(&format!(
            "{columns} columns, reverse field {}, blink {}; every fifth row is dark.",
            u8::from(reverse),
            u8::from(blink)
        ));
        script.lines(&["power", "port 0A 02"]);
        script.columns(columns);
        if reverse {
            script.line("port 0C 0A");
        }
        if blink {
            script.line("port 10C 08");
        }
        script.line(&format!("strew picture {} 16 256", 510 + setting));
        script.line(&format!("strew glyphs {} 8 256", 520 + setting));
        for row in (0..ROWS).step_by(5) {
            script.line(&format!("put picture {} FE", row * RECORD + 3));
        }
        for row in 0..ROWS {
            let scan = (row * 3 + setting * 7) % 10 + 1;
            script.line(&format!("line {row} {scan}"));
        }
        script.line(&format!("latch {:02X}", setting + 1));
        script.lines(&["lines", "sums"]);
    }
    script
}
