//! Which version the linked archive is of.

use crate::foreign;

/// This crate's version as one number: a million times the major number, a thousand times the minor one, and the patch number. It is
/// `DECKMARTEN_VERSION` of the header that the crate declares.
pub const VERSION: u32 = 10002;

/// The version of the archive that is linked. It is [`VERSION`]: the build refuses an archive of another one.
///
/// ```
/// assert_eq!(deckmarten::version(), deckmarten::VERSION);
/// ```
pub fn version() -> u32 {
    foreign::version()
}
