//! The fields of a call. A field says enough about itself that calls can be drawn, damaged and made smaller by code that
//! does not know their operation.

#[derive(Clone, Copy, PartialEq, Eq)]
pub enum Kind {
    /// Records of eight bytes.
    Table,
    /// A byte a box: out, in or open.
    Sheet,
    /// A byte a box: out or in.
    List,
    /// The number of boxes itself, where no sheet or list has it as its length.
    #[allow(dead_code)] // for operations to come, as are all that are marked so
    Boxes,
    #[allow(dead_code)]
    Number,
    /// A buffer that is only written to, so that what it holds before the call makes no difference.
    Room,
    /// What its operation alone knows how to draw.
    #[allow(dead_code)]
    Own,
}

#[derive(Clone, Copy)]
pub struct Field {
    /// Different in one call; the field is known by it.
    pub name: &'static str,
    pub kind: Kind,
    /// How many bytes belong together.
    pub piece: usize,
    /// A line with other than whole pieces here is no call.
    pub whole: bool,
    /// How many bytes a box has here; 0 where the length has nothing to do with the boxes.
    pub a_box: usize,
    /// Answered with its bytes after the call, whatever the answer.
    pub lent: bool,
}

pub const MAKER: Field = Field { piece: 8, ..Field::new("maker", Kind::Table) };
pub const DEPOT: Field = Field { piece: 8, ..Field::new("depot", Kind::Table) };
pub const SHEET: Field = Field { a_box: 1, ..Field::new("sheet", Kind::Sheet) };
/// The full list that is asked about, in place of a sheet.
pub const LIST: Field = Field { a_box: 1, ..Field::new("list", Kind::List) };
/// A full list beside the sheet.
pub const GIVEN: Field = Field { a_box: 1, ..Field::new("given", Kind::List) };
pub const OUT: Field = Field::room("out", 1);
#[allow(dead_code)]
pub const N: Field = Field::number("n", Kind::Boxes);

impl Field {
    /// Bytes of any number, not lent.
    pub const fn new(name: &'static str, kind: Kind) -> Field {
        Field { name, kind, piece: 1, whole: false, a_box: 0, lent: false }
    }

    /// A lent buffer with room for so many bytes a box.
    pub const fn room(name: &'static str, a_box: usize) -> Field {
        Field { a_box, lent: true, ..Field::new(name, Kind::Room) }
    }

    /// Four bytes, the lowest first.
    #[allow(dead_code)]
    pub const fn number(name: &'static str, kind: Kind) -> Field {
        Field { piece: 4, whole: true, ..Field::new(name, kind) }
    }

    /// An operation's own field, which a line must fill with whole pieces of so many bytes.
    #[allow(dead_code)]
    pub const fn pieces(name: &'static str, piece: usize) -> Field {
        Field { piece, whole: true, ..Field::new(name, Kind::Own) }
    }

    pub fn is_number(&self) -> bool {
        matches!(self.kind, Kind::Boxes | Kind::Number)
    }

    /// Whether a line may have these bytes here.
    pub fn takes(&self, bytes: &[u8]) -> bool {
        match self.is_number() {
            true => bytes.len() == self.piece,
            false => !self.whole || bytes.len() % self.piece == 0,
        }
    }
}

/// A number field's number.
pub fn number(bytes: &[u8]) -> usize {
    bytes.iter().rev().fold(0, |high, &byte| 256 * high + byte as usize)
}

/// The bytes of a number field, which end at the greatest number that they can hold.
pub fn number_bytes(number: usize) -> Vec<u8> {
    (number.min(u32::MAX as usize) as u32).to_le_bytes().to_vec()
}
