// SPDX-License-Identifier: MIT OR Apache-2.0
//! What a call fails with.

use std::fmt;

pub(crate) const ENOENT: i32 = 2;
pub(crate) const ENOMEM: i32 = 12;
pub(crate) const EBUSY: i32 = 16;
pub(crate) const ENODEV: i32 = 19;
pub(crate) const EINVAL: i32 = 22;
pub(crate) const EMFILE: i32 = 24;
pub(crate) const ERANGE: i32 = 34;
pub(crate) const EDEADLK: i32 = 35;
pub(crate) const EPROTOTYPE: i32 = 91;
pub(crate) const ETIMEDOUT: i32 = 110;

/// Why a call failed: the library's error number, which is one of Linux.
#[derive(Clone, Copy, PartialEq, Eq, Debug)]
pub struct Error(pub i32);

impl Error {
    /// What kind of error it is, as [`std::io::Error`] says it.
    pub fn kind(self) -> std::io::ErrorKind {
        std::io::Error::from(self).kind()
    }
}

impl fmt::Display for Error {
    fn fmt(&self, to: &mut fmt::Formatter<'_>) -> fmt::Result {
        std::io::Error::from_raw_os_error(self.0).fmt(to)
    }
}
impl std::error::Error for Error {}
impl From<Error> for std::io::Error {
    fn from(it: Error) -> Self {
        Self::from_raw_os_error(it.0)
    }
}

pub type Result<T> = std::result::Result<T, Error>;

/// The node cannot be entered: it is removed, being removed, hidden, or not yet activated.
#[derive(Clone, Copy, PartialEq, Eq, Debug)]
pub struct Gone;

impl fmt::Display for Gone {
    fn fmt(&self, to: &mut fmt::Formatter<'_>) -> fmt::Result {
        to.write_str("the node is gone")
    }
}
impl std::error::Error for Gone {}

/// A result of the C library: a negative number is an error.
pub(crate) fn must(returned: impl Into<i64>) -> Result<i64> {
    let returned = returned.into();
    if returned < 0 {
        Err(Error(-returned as i32))
    } else {
        Ok(returned)
    }
}
