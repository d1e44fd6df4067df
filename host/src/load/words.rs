//! A script in words: one call a line, its numbers in hex.
use super::call::{Call, Lent, Step};
use crate::rainbow::FUNCTIONS;

/// The call's numbers, each with its name, in the header's order.
pub fn numbers(call: &Call) -> Vec<(&'static str, u64)> {
    match *call {
        Call::WritePort { port, code } => vec![("port", port.into()), ("code", code.into())],
        Call::Read8088 { address } => vec![("address", address.into())],
        Call::Store8088 { address, byte }
        | Call::StoreWithPicture { address, byte }
        | Call::StoreForViewers { address, byte }
        | Call::StoreWithIndex { address, byte }
        | Call::StoreWithIndexForViewers { address, byte } => {
            vec![("address", address.into()), ("byte", byte.into())]
        }
        Call::ReadZ80 { address } => vec![("address", address.into())],
        Call::StoreZ80 { address, byte } => {
            vec![("address", address.into()), ("byte", byte.into())]
        }
        Call::ReadShadow { place } => vec![("place", place as u64)],
        Call::WriteShadow { place, value } => {
            vec![("place", place as u64), ("value", value.into())]
        }
        Call::IsMarked { marks, row } => vec![("marks", marks.into()), ("row", row as u64)],
        Call::GlyphPart { code } => vec![("code", code.into())],
        Call::ScanLine { row, scan } => vec![("row", row as u64), ("scan", scan as u64)],
        Call::Explain { row, column } => vec![("row", row as u64), ("column", column as u64)],
        Call::Ask { viewer } => vec![("viewer", viewer as u64)],
        Call::AlterPicture { place, byte } => {
            vec![("place", place as u64), ("byte", byte.into())]
        }
        Call::StrewPicture { seed } | Call::OtherPicture { seed } => vec![("seed", seed)],
        Call::AlterIndex { entry, byte } => vec![("entry", entry as u64), ("byte", byte.into())],
        Call::FillIndex { byte } => vec![("byte", byte.into())],
        Call::StrewIndex { seed, under } => vec![("under", under as u64), ("seed", seed)],
        Call::OtherIndex { seed } => vec![("seed", seed)],
        _ => Vec::new(),
    }
}

fn name(call: &Call) -> String {
    match call {
        Call::DrawAfresh => "draw into a second picture".to_string(),
        Call::IndexAfresh => "index_readers into a second index".to_string(),
        Call::SetMachine(machine) => format!("(by hand) the machine becomes {machine:X?}"),
        Call::SetViewers(viewers) => format!("(by hand) the viewers become {viewers:X?}"),
        Call::AlterPicture { .. } => "(by hand) alter the picture".to_string(),
        Call::StrewPicture { .. } => "(by hand) any bytes in the picture".to_string(),
        Call::OtherPicture { .. } => "(by hand) a picture of other memories".to_string(),
        Call::AlterIndex { .. } => "(by hand) alter the index".to_string(),
        Call::FillIndex { .. } => "(by hand) fill the index with".to_string(),
        Call::StrewIndex { .. } => "(by hand) any bytes in the index".to_string(),
        Call::OtherIndex { .. } => "(by hand) an index of other memories".to_string(),
        _ => call
            .function()
            .map_or(String::new(), |function| FUNCTIONS[function].to_string()),
    }
}

pub fn words(step: &Step) -> String {
    let mut text = name(&step.call);
    for (name, number) in numbers(&step.call) {
        text += &format!(" {name} {number:X}");
    }
    if step.call.times() > 1 {
        text += &format!(", {:X} times", step.call.times());
    }
    for buffer in step.call.buffers() {
        let how = match step.lent.of(*buffer) {
            Lent::Whole => continue,
            Lent::Null => "NULL",
            Lent::Empty => "empty",
            Lent::Less => "one byte short",
            Lent::More => "one byte longer",
            Lent::Doubled => "twice as long",
        };
        text += &format!(", {} {how}", buffer.name());
    }
    text
}

/// What the number is that a call answers.
pub fn answered(call: &Call) -> &'static str {
    match call {
        Call::Read8088 { .. } | Call::ReadZ80 { .. } | Call::ReadShadow { .. } => "byte",
        Call::Draw | Call::DrawAfresh | Call::DrawForViewers => "read count",
        Call::Ask { .. } => "marks",
        _ if call.mends() => "marks",
        Call::GlyphPart { .. } => "place",
        _ => "number",
    }
}
