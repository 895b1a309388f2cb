//! What is lent to a call: as C has it, and as slices.

use std::slice;

/// Where the words of the sheet and the bytes stand, and how many there are.
#[derive(Clone, Copy)]
pub struct Lent {
    pub sheet: *mut u64,
    pub words: usize,
    pub bytes: *mut u8,
    pub length: usize,
}

/// The sheet and the bytes.
pub struct Slices<'a> {
    pub sheet: &'a mut [u64],
    pub bytes: &'a mut [u8],
}

impl Lent {
    /// # Safety
    /// The words and the bytes stand where this says, and nobody else uses them while the slices are used.
    pub unsafe fn slices<'a>(self) -> Slices<'a> {
        Slices {
            sheet: slice::from_raw_parts_mut(self.sheet, self.words),
            bytes: slice::from_raw_parts_mut(self.bytes, self.length),
        }
    }
}

impl<'a> Slices<'a> {
    /// A sheet, and no bytes.
    pub fn of_sheet(sheet: &'a mut [u64]) -> Slices<'a> {
        Slices { sheet, bytes: &mut [] }
    }

    /// Where they stand.
    pub fn lent(self) -> Lent {
        let Slices { sheet, bytes } = self;
        Lent {
            sheet: sheet.as_mut_ptr(),
            words: sheet.len(),
            bytes: bytes.as_mut_ptr(),
            length: bytes.len(),
        }
    }
}
