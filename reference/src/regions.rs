//! Where an operand's elements lie (paper: "Operations"; source document 001 owns regions).

use crate::operations::ElementType;
use crate::words::{DestinationFields, SourceFields};

/// Bytes of a register.
pub const REGISTER_BYTES: usize = 32;
/// Bytes of the register file.
pub const FILE_BYTES: usize = 4096;

/// The number of channels of an ExecSize code, or of elements of a Width code.
pub fn power_of_code(code: u32) -> Option<usize> {
    (code <= 4).then(|| 1 << code)
}

/// The stride of a HorzStride or destination stride code.
pub fn stride_of_code(code: u32) -> usize {
    [0, 1, 2, 4][code as usize]
}

/// The stride of a VertStride code.
pub fn vertical_of_code(code: u32) -> Option<usize> {
    [0, 1, 2, 4, 8, 16, 32].get(code as usize).copied()
}

/// An operand in the register file or in a0: element n lies in row n / width, column n % width.
#[derive(Clone, Copy, PartialEq, Eq, Debug)]
pub struct Region {
    /// Byte of the first element. An address may lead before the register file.
    pub start: i64,
    pub vertical_stride: usize,
    pub width: usize,
    pub horizontal_stride: usize,
    pub element: ElementType,
}

impl Region {
    /// The region of a source that has one, if its codes are defined. By address, its start is
    /// counted from what a0 holds.
    pub fn of_source(fields: &SourceFields) -> Option<Region> {
        Some(Region {
            start: fields.location().start(),
            vertical_stride: vertical_of_code(fields.vertical_stride)?,
            width: power_of_code(fields.width)?,
            horizontal_stride: stride_of_code(fields.horizontal_stride),
            element: ElementType::from_code(fields.type_code)?,
        })
    }

    /// The region of a destination that has one: one row as long as need be.
    pub fn of_destination(fields: &DestinationFields) -> Option<Region> {
        Some(Region {
            start: fields.location().start(),
            vertical_stride: 0,
            width: 16,
            horizontal_stride: stride_of_code(fields.stride),
            element: ElementType::from_code(fields.type_code)?,
        })
    }

    /// Whether so many channels may read the region: none under a row's width, and none of the
    /// four shapes on which the laptops hang.
    pub fn serves(&self, channels: usize) -> bool {
        channels >= self.width && !self.hangs(channels)
    }

    /// The four shapes on which the laptops hang.
    fn hangs(&self, channels: usize) -> bool {
        let Region { vertical_stride: vertical, width, horizontal_stride: horizontal, .. } = *self;
        let row_ends_elsewhere =
            channels == width && horizontal != 0 && vertical != width * horizontal;
        let column_has_stride = width == 1 && horizontal != 0;
        let element_has_stride = channels == 1 && width == 1 && vertical != 0;
        let scalar_is_wide = vertical == 0 && horizontal == 0 && width != 1;
        row_ends_elsewhere || column_has_stride || element_has_stride || scalar_is_wide
    }

    /// The region so many bytes further on.
    pub fn moved(self, bytes: i64) -> Region {
        Region { start: self.start + bytes, ..self }
    }

    /// How many bytes element n lies behind the first.
    pub fn distance_of(&self, n: usize) -> usize {
        let row = n / self.width;
        let column = n % self.width;
        let elements = row * self.vertical_stride + column * self.horizontal_stride;
        elements * self.element.size()
    }

    /// The first byte of element n.
    pub fn byte_of(&self, n: usize) -> i64 {
        self.start + self.distance_of(n) as i64
    }

    /// How many bytes the last byte of so many elements lies behind the first. No stride is
    /// negative, so the last element lies highest.
    pub fn span(&self, channels: usize) -> usize {
        self.distance_of(channels - 1) + self.element.size() - 1
    }

    /// Whether the first and the last byte of so many elements lie in the same or in
    /// neighbouring registers, none past the last of so many bytes (rule 11).
    pub fn fits(&self, channels: usize, bytes: usize) -> bool {
        let start = self.start as usize;
        let last = start + self.span(channels);
        last < bytes && last / REGISTER_BYTES - start / REGISTER_BYTES <= 1
    }
}
