//! The calls of include/rainbow.h, the buffers that they are lent, and lengths that differ from the list.
use crate::chain::PICTURE;
use crate::dots::{GLYPHS, LINE};
use crate::index::INDEX;
use crate::machine::Machine;
use crate::memories::{ATTRIBUTE, NVM, PRIVATE, SCREEN, SHADOW, SHARED};
use crate::rainbow::{Waiting, FUNCTIONS};
use crate::screen::LIST;

/// A lent buffer. `Spare` is a second picture, to draw afresh beside the kept one, and `SpareIndex` a second index.
#[derive(Clone, Copy, Debug, PartialEq, Eq)]
pub enum Buffer {
    Shared,
    Private,
    Screen,
    Attribute,
    Table,
    Nvm,
    Shadow,
    Picture,
    Line,
    List,
    Index,
    Spare,
    SpareIndex,
}

pub const BUFFERS: [Buffer; 13] = [
    Buffer::Shared,
    Buffer::Private,
    Buffer::Screen,
    Buffer::Attribute,
    Buffer::Table,
    Buffer::Nvm,
    Buffer::Shadow,
    Buffer::Picture,
    Buffer::Line,
    Buffer::List,
    Buffer::Index,
    Buffer::Spare,
    Buffer::SpareIndex,
];

impl Buffer {
    pub fn listed(self) -> usize {
        match self {
            Self::Shared => SHARED,
            Self::Private => PRIVATE,
            Self::Screen => SCREEN,
            Self::Attribute => ATTRIBUTE,
            Self::Table => GLYPHS,
            Self::Nvm => NVM,
            Self::Shadow => SHADOW,
            Self::Picture | Self::Spare => PICTURE,
            Self::Line => LINE,
            Self::List => LIST,
            Self::Index | Self::SpareIndex => INDEX,
        }
    }

    pub fn name(self) -> String {
        match self {
            Self::SpareIndex => "spare index".to_string(),
            _ => format!("{self:?}").to_lowercase(),
        }
    }
}

/// How much of a buffer is lent.
#[derive(Clone, Copy, Debug, PartialEq, Eq)]
pub enum Lent {
    Whole,
    Null,
    Empty,
    Less,
    More,
    Doubled,
}

pub const WRONG_LENGTHS: [Lent; 5] = [
    Lent::Null,
    Lent::Empty,
    Lent::Less,
    Lent::More,
    Lent::Doubled,
];

impl Lent {
    /// The length lent; none for NULL, whose length is 0.
    pub fn length(self, listed: usize) -> Option<usize> {
        match self {
            Self::Whole => Some(listed),
            Self::Null => None,
            Self::Empty => Some(0),
            Self::Less => Some(listed - 1),
            Self::More => Some(listed + 1),
            Self::Doubled => Some(2 * listed),
        }
    }
}

/// What is lent of each buffer.
#[derive(Clone, Copy, Debug, PartialEq, Eq)]
pub struct Lengths([Lent; BUFFERS.len()]);

impl Lengths {
    pub const WHOLE: Self = Self([Lent::Whole; BUFFERS.len()]);

    pub fn of(&self, buffer: Buffer) -> Lent {
        self.0[buffer as usize]
    }

    pub fn set(&mut self, buffer: Buffer, lent: Lent) {
        self.0[buffer as usize] = lent;
    }
}

/// A call with its numbers. A watchdog tick is so many calls, one after the other. The last nine are no calls but
/// changes that the caller makes by hand.
#[derive(Clone, Copy, Debug, PartialEq, Eq)]
pub enum Call {
    Version,
    PowerUp,
    VerticalTick,
    WatchdogTick { times: u32 },
    Columns,
    Z80Runs,
    Blanked,
    Graphics,
    ScrollLatch,
    DotsOfLine,
    WritePort { port: u16, code: u8 },
    Read8088 { address: u32 },
    Store8088 { address: u32, byte: u8 },
    ReadZ80 { address: u16 },
    StoreZ80 { address: u16, byte: u8 },
    ReadShadow { place: usize },
    WriteShadow { place: usize, value: u8 },
    Draw,
    DrawAfresh,
    StoreWithPicture { address: u32, byte: u8 },
    IsMarked { marks: u32, row: usize },
    GlyphPart { code: u8 },
    ScanLine { row: usize, scan: usize },
    ListLines,
    Explain { row: usize, column: usize },
    StartViewers,
    Ask { viewer: usize },
    DrawForViewers,
    StoreForViewers { address: u32, byte: u8 },
    IndexReaders,
    IndexAfresh,
    StoreWithIndex { address: u32, byte: u8 },
    StoreWithIndexForViewers { address: u32, byte: u8 },
    SetMachine(Machine),
    SetViewers(Waiting),
    AlterPicture { place: usize, byte: u8 },
    StrewPicture { seed: u64 },
    OtherPicture { seed: u64 },
    AlterIndex { entry: usize, byte: u8 },
    FillIndex { byte: u8 },
    StrewIndex { seed: u64, under: usize },
    OtherIndex { seed: u64 },
}

impl Call {
    /// The function called, by its number in the list; none for a change by hand.
    pub fn function(&self) -> Option<usize> {
        let name = match self {
            Self::Version => "version",
            Self::PowerUp => "power_up",
            Self::VerticalTick => "vertical_tick",
            Self::WatchdogTick { .. } => "watchdog_tick",
            Self::Columns => "columns",
            Self::Z80Runs => "z80_runs",
            Self::Blanked => "blanked",
            Self::Graphics => "graphics",
            Self::ScrollLatch => "scroll_latch",
            Self::DotsOfLine => "dots_of_line",
            Self::WritePort { .. } => "write_port",
            Self::Read8088 { .. } => "read_8088",
            Self::Store8088 { .. } => "store_8088",
            Self::ReadZ80 { .. } => "read_z80",
            Self::StoreZ80 { .. } => "store_z80",
            Self::ReadShadow { .. } => "read_shadow",
            Self::WriteShadow { .. } => "write_shadow",
            Self::Draw | Self::DrawAfresh => "draw",
            Self::StoreWithPicture { .. } => "store_with_picture",
            Self::IsMarked { .. } => "is_marked",
            Self::GlyphPart { .. } => "glyph_part",
            Self::ScanLine { .. } => "scan_line",
            Self::ListLines => "list_lines",
            Self::Explain { .. } => "explain",
            Self::StartViewers => "start_viewers",
            Self::Ask { .. } => "ask",
            Self::DrawForViewers => "draw_for_viewers",
            Self::StoreForViewers { .. } => "store_for_viewers",
            Self::IndexReaders | Self::IndexAfresh => "index_readers",
            Self::StoreWithIndex { .. } => "store_with_index",
            Self::StoreWithIndexForViewers { .. } => "store_with_index_for_viewers",
            _ => return None,
        };
        FUNCTIONS.iter().position(|known| *known == name)
    }

    /// How often it is made.
    pub fn times(&self) -> u32 {
        match self {
            Self::WatchdogTick { times } => *times,
            _ => 1,
        }
    }

    /// Whether it is an access of the 8088, which reset refuses.
    pub fn by_8088(&self) -> bool {
        use Call::*;
        matches!(
            self,
            WritePort { .. }
                | Read8088 { .. }
                | Store8088 { .. }
                | ReadShadow { .. }
                | WriteShadow { .. }
                | StoreWithPicture { .. }
                | StoreForViewers { .. }
                | StoreWithIndex { .. }
                | StoreWithIndexForViewers { .. }
        )
    }

    /// Whether it is a store that mends a picture.
    pub fn mends(&self) -> bool {
        let without = matches!(
            self,
            Self::StoreWithPicture { .. } | Self::StoreForViewers { .. }
        );
        without || self.stores_with_index().is_some()
    }

    /// The address and the byte of a store with an index.
    pub fn stores_with_index(&self) -> Option<(u32, u8)> {
        match *self {
            Self::StoreWithIndex { address, byte }
            | Self::StoreWithIndexForViewers { address, byte } => Some((address, byte)),
            _ => None,
        }
    }

    /// Whether it is lent an index.
    pub fn has_index(&self) -> bool {
        let afresh = matches!(self, Self::IndexReaders | Self::IndexAfresh);
        afresh || self.stores_with_index().is_some()
    }

    /// Whether viewers come back from it.
    pub fn has_viewers(&self) -> bool {
        use Call::*;
        matches!(
            self,
            StartViewers
                | Ask { .. }
                | DrawForViewers
                | StoreForViewers { .. }
                | StoreWithIndexForViewers { .. }
        )
    }

    /// The buffers that the call is lent.
    pub fn buffers(&self) -> &'static [Buffer] {
        use Buffer::*;
        match self {
            Self::WritePort { .. } => &[Shadow, Nvm],
            Self::Read8088 { .. } | Self::Store8088 { .. } => &[Shared, Screen, Attribute],
            Self::ReadZ80 { .. } | Self::StoreZ80 { .. } => &[Private, Shared],
            Self::ReadShadow { .. } | Self::WriteShadow { .. } => &[Shadow],
            Self::Draw | Self::DrawForViewers => &[Screen, Attribute, Picture],
            Self::DrawAfresh => &[Screen, Attribute, Spare],
            Self::StoreWithPicture { .. } | Self::StoreForViewers { .. } => {
                &[Shared, Screen, Attribute, Picture]
            }
            Self::IndexReaders => &[Screen, Attribute, Index],
            Self::IndexAfresh => &[Screen, Attribute, SpareIndex],
            Self::StoreWithIndex { .. } | Self::StoreWithIndexForViewers { .. } => {
                &[Shared, Screen, Attribute, Picture, Index]
            }
            Self::GlyphPart { .. } => &[Table],
            Self::ScanLine { .. } => &[Picture, Table, Line],
            Self::ListLines => &[Picture, List],
            Self::Explain { .. } => &[Screen, Attribute],
            _ => &[],
        }
    }
}

/// A call and what it is lent.
#[derive(Clone, Copy, Debug, PartialEq, Eq)]
pub struct Step {
    pub call: Call,
    pub lent: Lengths,
}

impl From<Call> for Step {
    fn from(call: Call) -> Self {
        Self {
            call,
            lent: Lengths::WHOLE,
        }
    }
}

impl Step {
    pub fn whole(&self) -> bool {
        self.lent == Lengths::WHOLE
    }
}
