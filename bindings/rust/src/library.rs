//! Which libraries this crate can call.

use crate::error::Error;
use crate::ffi;

/// The version of `include/cagzhomul.h` that this crate calls: a thousand times the major one, and the
/// minor one.
const VERSION: u32 = 2001;

/// Refuses the library that is linked, if this crate cannot call it. Each opening begins so.
pub(crate) fn check_library() -> Result<(), Error> {
    check(ffi::version())
}

/// Refuses a library of another version than this crate can call, which is of the same major one and of
/// no lower minor one.
fn check(version: u32) -> Result<(), Error> {
    match version / 1000 == VERSION / 1000 && version >= VERSION {
        true => Ok(()),
        false => Err(Error::LibraryVersion { version }),
    }
}

#[cfg(test)]
mod tests {
    use super::*;

    #[test]
    fn a_library_of_another_version_is_refused() {
        for version in [2001, 2002, 2999] {
            assert_eq!(check(version), Ok(()), "{version}");
        }
        for version in [0, 1, 2, 1000, 1004, 1999, 2000, 3000, 3001, u32::MAX] {
            let refused = Err(Error::LibraryVersion { version });
            assert_eq!(check(version), refused, "{version}");
        }
        assert_eq!(check_library(), Ok(()));
    }

    #[test]
    fn the_version_is_that_of_the_header() {
        let header = include_str!("../../../include/cagzhomul.h");
        assert!(header.contains(&format!("#define CAGZHOMUL_VERSION {VERSION}\n")));
    }
}
