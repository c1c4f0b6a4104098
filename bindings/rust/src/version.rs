//! The versions of binding and library, and whether the two go together.

use crate::ffi;
use std::fmt;
use std::sync::atomic::{AtomicBool, Ordering};

/// The version of this binding.
pub const VERSION: &str = env!("CARGO_PKG_VERSION");

/// A version in its three numbers. Binding and library go together where major and minor are the same.
#[derive(Clone, Copy, Debug, PartialEq, Eq, PartialOrd, Ord, Hash)]
pub struct Version {
    /// the first number
    pub major: u32,
    /// the second
    pub minor: u32,
    /// the third
    pub patch: u32,
}

impl Version {
    /// Of the one number by which the library tells it.
    fn from_number(number: u32) -> Version {
        Version {
            major: number / 1_000_000,
            minor: number / 1000 % 1000,
            patch: number % 1000,
        }
    }

    /// The binding's.
    fn own() -> Version {
        let number = |text: &str| text.parse().expect("cargo's number");
        Version {
            major: number(env!("CARGO_PKG_VERSION_MAJOR")),
            minor: number(env!("CARGO_PKG_VERSION_MINOR")),
            patch: number(env!("CARGO_PKG_VERSION_PATCH")),
        }
    }
}

impl fmt::Display for Version {
    fn fmt(&self, f: &mut fmt::Formatter) -> fmt::Result {
        write!(f, "{}.{}.{}", self.major, self.minor, self.patch)
    }
}

/// The library has another major or minor number than the binding.
#[derive(Clone, Copy, Debug, PartialEq, Eq)]
pub struct VersionMismatch {
    /// the binding's version
    pub binding: Version,
    /// the library's
    pub library: Version,
}

impl fmt::Display for VersionMismatch {
    fn fmt(&self, f: &mut fmt::Formatter) -> fmt::Result {
        let VersionMismatch { binding, library } = self;
        write!(f, "tiedraw: the binding has version {binding}, the library {library}; major and minor must be the same")
    }
}

impl std::error::Error for VersionMismatch {}

/// The version of the library that is linked or loaded.
pub fn library_version() -> Version {
    // SAFETY: a function without arguments, the same in every version.
    Version::from_number(unsafe { ffi::tiedraw_version() })
}

/// Whether the library goes with this binding. The calls panic where it does not; this is for who wants to know before.
pub fn check_version() -> Result<(), VersionMismatch> {
    compare(Version::own(), library_version())
}

fn compare(binding: Version, library: Version) -> Result<(), VersionMismatch> {
    match (binding.major, binding.minor) == (library.major, library.minor) {
        true => Ok(()),
        false => Err(VersionMismatch { binding, library }),
    }
}

static ENSURED: AtomicBool = AtomicBool::new(false);

/// Panics where the library does not go with this binding. After the first time it costs a load.
pub(crate) fn ensure() {
    if !ENSURED.load(Ordering::Relaxed) {
        compare_now();
    }
}

#[cold]
fn compare_now() {
    check_version().unwrap_or_else(|mismatch| panic!("{mismatch}"));
    ENSURED.store(true, Ordering::Relaxed);
}

#[cfg(test)]
mod tests {
    use super::*;

    fn fits(binding: u32, library: u32) -> bool {
        compare(Version::from_number(binding), Version::from_number(library)).is_ok()
    }

    #[test]
    fn major_and_minor_must_be_the_same() {
        for library in [3_014_000, 3_014_015, 3_014_999] {
            assert!(fits(3_014_015, library), "{library}");
        }
        for library in [
            0,
            14_015,
            3_013_015,
            3_015_015,
            2_014_015,
            4_014_015,
            u32::MAX,
        ] {
            assert!(!fits(3_014_015, library), "{library}");
        }
    }

    #[test]
    fn a_mismatch_tells_both_versions() {
        let mismatch = compare(
            Version::from_number(5_006_007),
            Version::from_number(1_003_004),
        );
        assert_eq!(
            mismatch.unwrap_err().to_string(),
            "tiedraw: the binding has version 5.6.7, the library 1.3.4; major and minor must be the same"
        );
    }

    #[test]
    fn the_own_version_is_the_text() {
        assert_eq!(Version::own().to_string(), VERSION);
    }
}
