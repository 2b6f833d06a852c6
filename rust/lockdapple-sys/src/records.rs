//! The records of answers. `code` is a refusal's number, 0 for none.

#[repr(C)]
#[derive(Clone, Copy, Debug, PartialEq, Eq)]
pub struct Vector {
    pub row: i16,
    pub col: i16,
}

/// The ends of a block's range, both included.
#[repr(C)]
#[derive(Clone, Copy, Debug, PartialEq, Eq)]
pub struct Ends {
    pub code: u32,
    pub mvx_min: i16,
    pub mvx_max: i16,
    pub mvy_min: i16,
    pub mvy_max: i16,
}

/// A vector with its SAD and cost.
#[repr(C)]
#[derive(Clone, Copy, Debug, PartialEq, Eq)]
pub struct Found {
    pub code: u32,
    pub row: i16,
    pub col: i16,
    pub sad: u32,
    pub cost: u64,
}

/// The predictors of a block.
#[repr(C)]
#[derive(Clone, Copy, Debug, PartialEq, Eq)]
pub struct Subsets {
    pub code: u32,
    pub min_sad: u32,
    pub threshold: u32,
    pub b_count: u32,
    pub c_count: u32,
    pub center: Vector,
    pub b: [Vector; 5],
    pub c: [Vector; 5],
}

/// How many bytes a file has.
#[repr(C)]
#[derive(Clone, Copy, Debug, PartialEq, Eq)]
pub struct Written {
    pub code: u32,
    pub bytes: u64,
}

/// Columns and rows of cells.
#[repr(C)]
#[derive(Clone, Copy, Debug, PartialEq, Eq)]
pub struct Shape {
    pub code: u32,
    pub columns: u32,
    pub rows: u32,
}

/// Columns and rows of cells, and how many bytes the whole file has.
#[repr(C)]
#[derive(Clone, Copy, Debug, PartialEq, Eq)]
pub struct Peek {
    pub code: u32,
    pub columns: u32,
    pub rows: u32,
    pub bytes: u64,
}

/// The state between two fragments: 40 bytes, each of them in a field.
#[repr(C)]
#[derive(Clone, Copy, Debug, PartialEq, Eq)]
pub struct Reader {
    pub code: u32,
    pub columns: u32,
    pub rows: u32,
    pub cells: u32,
    pub held: u32,
    pub part: [u8; 16],
    pub spare: u32,
}

/// How many cells differ, and the first that does.
#[repr(C)]
#[derive(Clone, Copy, Debug, PartialEq, Eq)]
pub struct Comparison {
    pub code: u32,
    pub count: u64,
    pub first: u64,
}

/// The first cell that differs.
#[repr(C)]
#[derive(Clone, Copy, Debug, PartialEq, Eq)]
pub struct Place {
    pub code: u32,
    pub place: u64,
}

// What an answer that is written through a pointer holds before. No field is 0, so that
// one left unwritten under refusal shows.

impl Found {
    pub const UNWRITTEN: Found = Found {
        code: 99,
        row: 99,
        col: 99,
        sad: 99,
        cost: 99,
    };
}

impl Subsets {
    pub const UNWRITTEN: Subsets = {
        let mv = Vector { row: 99, col: 99 };
        Subsets {
            code: 99,
            min_sad: 99,
            threshold: 99,
            b_count: 99,
            c_count: 99,
            center: mv,
            b: [mv; 5],
            c: [mv; 5],
        }
    };
}

impl Peek {
    pub const UNWRITTEN: Peek = Peek {
        code: 99,
        columns: 99,
        rows: 99,
        bytes: 99,
    };
}

impl Reader {
    pub const UNWRITTEN: Reader = Reader {
        code: 99,
        columns: 99,
        rows: 99,
        cells: 99,
        held: 99,
        part: [99; 16],
        spare: 99,
    };
}

impl Comparison {
    pub const UNWRITTEN: Comparison = Comparison {
        code: 99,
        count: 99,
        first: 99,
    };
}
