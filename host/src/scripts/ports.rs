//! Every code of the three ports that refuse some, every port near the four, and every edge of port 0A.
use super::Script;

pub fn script() -> Script {
    let mut script = Script::new(
        0,
        "EVERY PORT. Every code of 04, 10C and 0C; those that are not in the port's list change nothing.",
    );
    script.lines(&["fill shadow 11", "fill nvm EE", "tick"]);
    for port in ["04", "10C", "0C"] {
        script.remark(&format!("Port {port}, codes 00 to FF."));
        for code in 0..256 {
            script.line(&format!("port {port} {code:02X}"));
        }
        script.line("machine");
    }
    script.remark("Ports 0000 to 0020 and 00FC to 0120 with code 00, which each of the four has.");
    script.line("power");
    for port in (0x0000..=0x0020).chain(0x00FC..=0x0120) {
        script.line(&format!("port {port:04X} 00"));
    }
    script.remark("Bits of the four ports' numbers, each turned over.");
    for port in [0x0004, 0x000A, 0x000C, 0x010C] {
        for bit in 0..16 {
            script.line(&format!("port {:04X} 00", port ^ 1 << bit));
        }
    }
    script.line("machine");
    edges(&mut script);
    script
}

fn edges(script: &mut Script) {
    script.remark(
        "0A: each pair of bits 7 and 6, held and then written, with other bits and without.",
    );
    for held in [0x00, 0x40, 0x80, 0xC0] {
        for code in [0x00, 0x40, 0x80, 0xC0] {
            script.remark(&format!("0A holds {held:02X}, then {code:02X}."));
            script.line("power");
            if held & 0x40 != 0 {
                script.line("port 0A 40");
            }
            script.line(&format!("port 0A {held:02X}"));
            script.lines(&["fill shadow 5A", "fill nvm C3", "put nvm 255 01"]);
            script.line(&format!("port 0A {:02X}", code | 0x2B));
            script.lines(&["machine", "bytes shadow 254 3", "bytes nvm 254 3"]);
        }
    }
    script.line("sums");
}
