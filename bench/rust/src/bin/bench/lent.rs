//! The buffers that are lent to the functions, at other places within a page of memory for each place of the functions: copies
//! are slower where source and target stand alike in their pages.

use crate::calls::PLACES;
use second::{MAX_FRAMES, MAX_OCTETS};

/// Octets of a page.
const PAGE: usize = 4096;
/// Between two places of a buffer, in octets: each time another line of 64 octets, and another part of it.
const STEP: usize = 16 * 37;

/// Elements from the start of a page on.
#[repr(align(4096))]
struct Pages<T>([T; 3 * PAGE]);

impl<T> Pages<T> {
    /// So many elements, some steps from the start.
    fn part(&mut self, steps: usize, length: usize) -> &mut [T] {
        let start = steps * STEP % PAGE / size_of::<T>();
        &mut self.0[start..start + length]
    }
}

/// What is lent: rows and bodies to read into, octets to write into, and fields.
pub struct Lent<'a> {
    pub rows: &'a mut [u16],
    pub bodies: &'a mut [u8],
    pub out: &'a mut [u8],
    pub fields: &'a mut [u16],
}

/// The memory of the buffers.
pub struct Memory {
    rows: Pages<u16>,
    bodies: Pages<u8>,
    out: Pages<u8>,
    fields: Pages<u16>,
}

impl Memory {
    pub fn new() -> Box<Self> {
        Box::new(Memory {
            rows: Pages([0; 3 * PAGE]),
            bodies: Pages([0; 3 * PAGE]),
            out: Pages([0; 3 * PAGE]),
            fields: Pages([0; 3 * PAGE]),
        })
    }

    /// The buffers at a place: any two of them stand another distance apart at each.
    pub fn at(&mut self, place: usize) -> Lent<'_> {
        assert!(place < PLACES);
        Lent {
            rows: self.rows.part(place, 2 * MAX_FRAMES),
            bodies: self.bodies.part(2 * place, MAX_OCTETS),
            out: self.out.part(3 * place, MAX_OCTETS),
            fields: self.fields.part(4 * place, 11),
        }
    }
}
