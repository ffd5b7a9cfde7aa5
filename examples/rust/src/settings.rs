//! What each call is held to.
use crate::ffi;
use std::error::Error;
use std::fmt;

/// The limits of each call. The default is that of the program `gate`: 1,000,000 of fuel, 1,024 frames and 256 pages.
///
/// ```
/// use gate::{Settings, SettingsError};
///
/// let settings = Settings::default().with_fuel(500)?.with_pages(1)?;
/// assert_eq!(settings, Settings::new(500, 1_024, 1)?);
/// assert_eq!(settings.with_frames(0), Err(SettingsError::Frames(0)));
/// # Ok::<(), SettingsError>(())
/// ```
#[derive(Clone, Copy, Debug, PartialEq, Eq, Hash)]
pub struct Settings {
    fuel: u32,
    frames: u32,
    pages: u32,
}

impl Settings {
    /// The most fuel.
    pub const MOST_FUEL: u32 = 1_000_000_000;
    /// The most frames; the fewest are 1.
    pub const MOST_FRAMES: u32 = 4_096;
    /// The most pages, of 65,536 bytes each.
    pub const MOST_PAGES: u32 = 1_024;

    /// These limits, in this order. Three numbers are easily exchanged: `Settings::default().with_fuel(500)?` names the one that it changes.
    ///
    /// # Errors
    ///
    /// The first limit that is out of its range.
    pub fn new(fuel: u32, frames: u32, pages: u32) -> Result<Self, SettingsError> {
        if fuel > Self::MOST_FUEL {
            Err(SettingsError::Fuel(fuel))
        } else if !(1..=Self::MOST_FRAMES).contains(&frames) {
            Err(SettingsError::Frames(frames))
        } else if pages > Self::MOST_PAGES {
            Err(SettingsError::Pages(pages))
        } else {
            Ok(Settings { fuel, frames, pages })
        }
    }

    /// The same, but for the fuel.
    ///
    /// # Errors
    ///
    /// [`SettingsError::Fuel`].
    pub fn with_fuel(self, fuel: u32) -> Result<Self, SettingsError> {
        Self::new(fuel, self.frames, self.pages)
    }

    /// The same, but for the frames.
    ///
    /// # Errors
    ///
    /// [`SettingsError::Frames`].
    pub fn with_frames(self, frames: u32) -> Result<Self, SettingsError> {
        Self::new(self.fuel, frames, self.pages)
    }

    /// The same, but for the pages.
    ///
    /// # Errors
    ///
    /// [`SettingsError::Pages`].
    pub fn with_pages(self, pages: u32) -> Result<Self, SettingsError> {
        Self::new(self.fuel, self.frames, pages)
    }

    /// How many functions may be entered and loops begun.
    #[must_use]
    pub fn fuel(self) -> u32 {
        self.fuel
    }

    /// How many functions may be entered and not yet left.
    #[must_use]
    pub fn frames(self) -> u32 {
        self.frames
    }

    /// How many pages the memory may have.
    #[must_use]
    pub fn pages(self) -> u32 {
        self.pages
    }

    pub(crate) fn to_c(self) -> ffi::gate_settings {
        let Settings { fuel, frames, pages } = self;
        ffi::gate_settings { fuel, frames, pages }
    }
}

impl Default for Settings {
    fn default() -> Self {
        Settings {
            fuel: 1_000_000,
            frames: 1_024,
            pages: 256,
        }
    }
}

/// The limit that is out of its range, with what was asked for.
#[derive(Clone, Copy, Debug, PartialEq, Eq, Hash)]
pub enum SettingsError {
    /// Above [`Settings::MOST_FUEL`].
    Fuel(u32),
    /// 0, or above [`Settings::MOST_FRAMES`].
    Frames(u32),
    /// Above [`Settings::MOST_PAGES`].
    Pages(u32),
}

impl fmt::Display for SettingsError {
    fn fmt(&self, f: &mut fmt::Formatter<'_>) -> fmt::Result {
        match self {
            SettingsError::Fuel(fuel) => write!(f, "fuel {fuel} is not from 0 to {}", Settings::MOST_FUEL),
            SettingsError::Frames(frames) => write!(f, "frames {frames} are not from 1 to {}", Settings::MOST_FRAMES),
            SettingsError::Pages(pages) => write!(f, "pages {pages} are not from 0 to {}", Settings::MOST_PAGES),
        }
    }
}

impl Error for SettingsError {}

#[cfg(test)]
mod tests {
    use super::*;
    use std::ptr;

    /// Whether the library takes these limits.
    fn library_takes(fuel: u32, frames: u32, pages: u32) -> bool {
        let settings = ffi::gate_settings { fuel, frames, pages };
        let (mut out, mut length) = ([0; 100], 0);
        let mut kept = ffi::gate_report { at: ptr::null_mut() };
        let module = b"";
        // SAFETY: `out` has the room that is told and takes any refusal; nothing overlaps.
        let status = unsafe {
            ffi::gate_run(
                module.as_ptr(),
                module.len(),
                module.as_ptr(),
                module.len(),
                &settings,
                out.as_mut_ptr(),
                out.len(),
                &mut length,
                &mut kept,
            )
        };
        assert!(status == ffi::GATE_MODULE_REFUSED || status == ffi::GATE_BAD_ARGUMENT);
        status == ffi::GATE_MODULE_REFUSED
    }

    #[test]
    fn ranges_are_the_library_s() {
        let edges = |most: u32| [0, 1, most, most + 1, u32::MAX];
        for fuel in edges(Settings::MOST_FUEL) {
            for frames in edges(Settings::MOST_FRAMES) {
                for pages in edges(Settings::MOST_PAGES) {
                    let ours = Settings::new(fuel, frames, pages).is_ok();
                    assert_eq!(ours, library_takes(fuel, frames, pages), "{fuel} {frames} {pages}");
                }
            }
        }
    }

    #[test]
    fn each_limit_is_changed_alone() {
        let settings = Settings::new(1, 2, 3).unwrap();
        assert_eq!(settings.with_fuel(7), Settings::new(7, 2, 3));
        assert_eq!(settings.with_frames(7), Settings::new(1, 7, 3));
        assert_eq!(settings.with_pages(7), Settings::new(1, 2, 7));
        assert_eq!(settings.with_fuel(u32::MAX), Err(SettingsError::Fuel(u32::MAX)));
        assert_eq!(settings.with_frames(0), Err(SettingsError::Frames(0)));
        assert_eq!(settings.with_pages(1_025), Err(SettingsError::Pages(1_025)));
    }

    #[test]
    fn defaults_are_in_range() {
        let Settings { fuel, frames, pages } = Settings::default();
        assert_eq!(Settings::new(fuel, frames, pages), Ok(Settings::default()));
    }
}
