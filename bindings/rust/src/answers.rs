//! What the functions of libcagzhomul answer: the statuses and structs of `include/cagzhomul.h`.

pub(crate) const OK: i32 = 0;
pub(crate) const BAD_LINE: i32 = 1;
pub(crate) const CLOSED: i32 = 2;
pub(crate) const OUT_OF_MEMORY: i32 = 5;
pub(crate) const NO_ENTRY: i32 = 7;
pub(crate) const BAD_ENTRY: i32 = 8;
pub(crate) const NOT_NEXT: i32 = 9;
pub(crate) const WAITING: i32 = 10;
pub(crate) const FINISHED: i32 = 11;
pub(crate) const BAD_COUNT: i32 = 12;
pub(crate) const MOMENT_TOO_LARGE: i32 = 13;
pub(crate) const VERSIONS_SPENT: i32 = 14;
pub(crate) const BAD_CODE: i32 = 17;
pub(crate) const BAD_TABLE: i32 = 18;
pub(crate) const BAD_LENGTH: i32 = 19;
pub(crate) const NO_TABLE: i32 = 20;
pub(crate) const NOT_PUBLIC: i32 = 21;
pub(crate) const WRONG_TYPE: i32 = 22;
pub(crate) const TOO_MANY_OPS: i32 = 23;
pub(crate) const BAD_LEASE: i32 = 25;
pub(crate) const LEASE_ENDED: i32 = 26;
pub(crate) const WRONG_SCHEMA: i32 = 27;
pub(crate) const CONFLICT: i32 = 28;
pub(crate) const DUPLICATE: i32 = 29;
pub(crate) const NO_ROW: i32 = 30;
pub(crate) const TOO_EARLY: i32 = 31;
pub(crate) const UNKNOWN: i32 = 32;
pub(crate) const NOT_ADJACENT: i32 = 33;
pub(crate) const WRONG_WAY: i32 = 34;
pub(crate) const DEPENDENT: i32 = 35;
pub(crate) const NAME_TAKEN: i32 = 36;
pub(crate) const OVER_LIMIT: i32 = 37;
pub(crate) const UNFINISHED: i32 = 38;
pub(crate) const NOT_WANTED: i32 = 39;
pub(crate) const STILL_USED: i32 = 40;
pub(crate) const BEGUN: i32 = 41;
pub(crate) const BAD_PIECE: i32 = 42;
pub(crate) const SPENT: i32 = 43;
pub(crate) const WRONG_ELEMENT: i32 = 44;
pub(crate) const MOVED: i32 = 45;
pub(crate) const IN_CHANGE: i32 = 46;
pub(crate) const TOO_FAR: i32 = 47;

/// `CAGZHOMUL_FAULT_NONE`, and causes after it.
pub(crate) const FAULT_NONE: u32 = 0;
pub(crate) const FAULT_KEY_LENGTH: u32 = 1;
pub(crate) const FAULT_KEY_VALUE: u32 = 2;
pub(crate) const FAULT_NAMED_TWICE: u32 = 4;
/// `CAGZHOMUL_NO_TYPE`.
pub(crate) const NO_TYPE: u32 = 3;

/// `CAGZHOMUL_ANY_JUMP`.
pub(crate) const ANY_JUMP: u64 = u64::MAX;

/// `cagzhomul_outcome`.
#[repr(C)]
#[derive(Clone, Copy)]
pub(crate) struct Outcome {
    pub(crate) status: i32,
    pub(crate) length: usize,
}

/// `cagzhomul_advanced`.
#[repr(C)]
#[derive(Clone, Copy)]
pub(crate) struct Advanced {
    pub(crate) status: i32,
    pub(crate) until: u64,
}

/// `cagzhomul_granted`.
#[repr(C)]
#[derive(Debug, Clone, Copy)]
pub(crate) struct Granted {
    pub(crate) status: i32,
    pub(crate) version: u64,
    pub(crate) granted: u64,
    pub(crate) until: u64,
    pub(crate) place: u64,
}

/// `cagzhomul_prepared`.
#[repr(C)]
#[derive(Clone, Copy)]
pub(crate) struct Prepared {
    pub(crate) status: i32,
    pub(crate) column: u32,
}

/// `cagzhomul_committed`.
#[repr(C)]
#[derive(Clone, Copy)]
pub(crate) struct Committed {
    pub(crate) status: i32,
    pub(crate) column: u32,
    pub(crate) place: u64,
    pub(crate) operation: usize,
    pub(crate) until: u64,
    pub(crate) now: u64,
    pub(crate) length: usize,
}

/// `cagzhomul_queried`.
#[repr(C)]
#[derive(Clone, Copy)]
pub(crate) struct Queried {
    pub(crate) status: i32,
    pub(crate) column: u32,
}

/// `cagzhomul_paged`.
#[repr(C)]
#[derive(Clone, Copy)]
pub(crate) struct Paged {
    pub(crate) status: i32,
    pub(crate) column: u32,
    pub(crate) more: u32,
}

/// `cagzhomul_checked`.
#[repr(C)]
#[derive(Clone, Copy)]
pub(crate) struct Checked {
    pub(crate) status: i32,
    pub(crate) rows: u64,
    pub(crate) missing: u64,
    pub(crate) extra: u64,
}

/// `cagzhomul_changed`.
#[repr(C)]
#[derive(Clone, Copy)]
pub(crate) struct Changed {
    pub(crate) status: i32,
    pub(crate) number: u64,
}

/// `cagzhomul_pieced`.
#[repr(C)]
#[derive(Clone, Copy)]
pub(crate) struct Pieced {
    pub(crate) status: i32,
    pub(crate) ended: bool,
    pub(crate) place: u64,
}

/// `cagzhomul_progressed`.
#[repr(C)]
#[derive(Clone, Copy)]
pub(crate) struct Progressed {
    pub(crate) status: i32,
    pub(crate) ended: bool,
    pub(crate) next: u32,
    pub(crate) left: u64,
    pub(crate) all: u64,
}

/// `cagzhomul_value_fault`.
#[repr(C)]
#[derive(Clone, Copy)]
pub(crate) struct ValueFault {
    pub(crate) status: i32,
    pub(crate) cause: u32,
    pub(crate) item: usize,
    pub(crate) place: usize,
    pub(crate) column: u32,
    wanted: u32,
    pub(crate) given: u32,
}

impl ValueFault {
    /// Whether a value is wrong.
    pub(crate) fn is_one(&self) -> bool {
        self.status == OK && self.cause != FAULT_NONE
    }
}

/// `cagzhomul_table_fault`.
#[repr(C)]
#[derive(Clone, Copy)]
pub(crate) struct TableFault {
    pub(crate) status: i32,
    pub(crate) cause: u32,
    pub(crate) table: usize,
    pub(crate) index: usize,
    pub(crate) place: usize,
}
