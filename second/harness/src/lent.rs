//! What a call is, and all that it is lent.

#[derive(Clone, Copy, PartialEq, Eq, Debug)]
pub enum Kind {
    Lengths,
    Sizes,
    Reset,
    Code,
    Read,
    FacBuild,
    FacRead,
}

pub const KINDS: [Kind; 7] =
    [Kind::Lengths, Kind::Sizes, Kind::Reset, Kind::Code, Kind::Read, Kind::FacBuild, Kind::FacRead];

impl Kind {
    pub fn name(self) -> &'static str {
        ["lengths", "sizes", "reset", "code", "read", "facbuild", "facread"][self as usize]
    }

    /// The refusal's number in an answer, 0 for acceptance.
    pub fn refusal(self, answer: u16) -> u8 {
        let number = if self == Kind::Read { answer / 256 } else { answer };
        number as u8
    }
}

/// All that a call is lent; buffers that its kind doesn't take are empty.
#[derive(Clone, PartialEq, Eq, Default)]
pub struct Lent {
    pub settings: Vec<u8>,
    pub state: Vec<u8>,
    pub lengths: Vec<u16>,
    pub sizes: Vec<u32>,
    pub memory: Vec<i16>,
    pub fac: Vec<u8>,
    pub sdc: Vec<u8>,
    pub msc: Vec<u8>,
    pub fac_cells: Vec<i16>,
    pub sdc_cells: Vec<i16>,
    pub msc_cells: Vec<i16>,
    pub fields: Vec<u32>,
    pub table: Vec<u8>,
}

impl Lent {
    /// Where the buffers first differ from others, in words.
    pub fn difference(&self, other: &Lent) -> Option<String> {
        first("settings", &self.settings, &other.settings)
            .or_else(|| first("state", &self.state, &other.state))
            .or_else(|| first("lengths", &self.lengths, &other.lengths))
            .or_else(|| first("sizes", &self.sizes, &other.sizes))
            .or_else(|| first("memory", &self.memory, &other.memory))
            .or_else(|| first("FAC bytes", &self.fac, &other.fac))
            .or_else(|| first("SDC bytes", &self.sdc, &other.sdc))
            .or_else(|| first("MSC bytes", &self.msc, &other.msc))
            .or_else(|| first("FAC cells", &self.fac_cells, &other.fac_cells))
            .or_else(|| first("SDC cells", &self.sdc_cells, &other.sdc_cells))
            .or_else(|| first("MSC cells", &self.msc_cells, &other.msc_cells))
            .or_else(|| first("fields", &self.fields, &other.fields))
            .or_else(|| first("table", &self.table, &other.table))
    }
}

pub(crate) fn first<T: PartialEq + std::fmt::Display>(name: &str, a: &[T], b: &[T]) -> Option<String> {
    if a.len() != b.len() {
        return Some(format!("{name}: {} elements instead of {}", a.len(), b.len()));
    }
    let i = a.iter().zip(b).position(|(x, y)| x != y)?;
    Some(format!("{name}: element {i} of {} is {} instead of {}", a.len(), a[i], b[i]))
}
