//! The calls of a text, and their report.
use crate::error::{self, beyond_interface};
use crate::ffi;
use crate::{Call, NoMemory, Settings};
use std::fmt;
use std::ptr;

/// Room for every refusal and for the reports of some hundred calls.
const ROOM: usize = 4096;

/// The answer to a module and a text of calls. It displays as its text.
#[derive(Clone, Debug, PartialEq, Eq, Hash)]
pub struct Report {
    text: String,
    status: Status,
}

/// What the text of a [`Report`] is.
#[derive(Clone, Copy, Debug, PartialEq, Eq, Hash)]
pub enum Status {
    /// The module is accepted, and the text is the report of its calls, in whatever way these ended.
    Reported,
    /// The text is the verdict line of a refused module.
    ModuleRefused,
    /// The text is `accepted`, and what is wrong with the text of calls.
    CallsRefused,
}

impl Status {
    /// The exit status of `gate run`: 0, 2 or 3.
    #[must_use]
    pub fn code(self) -> u8 {
        match self {
            Status::Reported => 0,
            Status::ModuleRefused => 2,
            Status::CallsRefused => 3,
        }
    }
}

impl Report {
    /// What `gate run` prints, byte by byte.
    #[must_use]
    pub fn text(&self) -> &str {
        &self.text
    }

    /// What the text is.
    #[must_use]
    pub fn status(&self) -> Status {
        self.status
    }

    /// How each call ended, in the order of the calls; nothing where the module or the calls are refused. A call that ran out of
    /// memory by itself is an error.
    ///
    /// ```
    /// use gate::{run, End, Settings, Value};
    ///
    /// let module = std::fs::read("../add.wasm")?;
    /// let report = run(&module, b"add\ti32:40\ti32:2\nsub\n", Settings::default())?;
    /// let ends: Result<Vec<_>, _> = report.ends().map(|call| call.map(|call| call.end)).collect();
    /// assert_eq!(ends?, [End::Values(vec![Value::I32(42)]), End::NoExport]);
    /// # Ok::<(), Box<dyn std::error::Error>>(())
    /// ```
    pub fn ends(&self) -> impl Iterator<Item = Result<Call, NoMemory>> + '_ {
        let lines = match self.status {
            Status::Reported => self.text.lines(),
            Status::ModuleRefused | Status::CallsRefused => "".lines(),
        };
        lines.filter(|line| !line.starts_with("total ")).map(Call::of_line)
    }

    /// The text, without a copy.
    #[must_use]
    pub fn into_text(self) -> String {
        self.text
    }

    /// Lets the library write into a buffer, and where that is short reads what the library keeps: nothing runs twice.
    ///
    /// # Safety
    ///
    /// `write` is `gate_run` or `gate_module_run` with its last four parameters open: it writes `length` bytes of ASCII where
    /// it answers 0, 2 or 3, and a report of its own where it answers `SHORT_BUFFER`.
    pub(crate) unsafe fn written(write: impl FnOnce(*mut u8, usize, &mut usize, &mut ffi::gate_report) -> u32) -> Result<Self, NoMemory> {
        let mut text = error::room(ROOM)?;
        let mut length = 0;
        let mut kept = ffi::gate_report { at: ptr::null_mut() };
        match write(text.as_mut_ptr(), ROOM, &mut length, &mut kept) {
            ffi::GATE_SHORT_BUFFER => Kept(kept).read(length),
            // SAFETY: `length` bytes are written, if it is no error.
            status => unsafe { Self::of(status, text, length) },
        }
    }

    /// # Safety
    ///
    /// Where `status` is 0, 2 or 3 the first `length` bytes of `text` are written, and they are within its capacity.
    unsafe fn of(status: u32, mut text: Vec<u8>, length: usize) -> Result<Self, NoMemory> {
        let status = match status {
            ffi::GATE_OK => Status::Reported,
            ffi::GATE_MODULE_REFUSED => Status::ModuleRefused,
            ffi::GATE_CALLS_REFUSED => Status::CallsRefused,
            ffi::GATE_NO_MEMORY => return Err(NoMemory),
            status => beyond_interface("status", status),
        };
        // SAFETY: by this function's own condition.
        unsafe { text.set_len(length) };
        let text = String::from_utf8(text).expect("the library writes ASCII");
        Ok(Report { text, status })
    }
}

impl fmt::Display for Report {
    fn fmt(&self, f: &mut fmt::Formatter<'_>) -> fmt::Result {
        f.write_str(&self.text)
    }
}

/// A report that the library keeps.
struct Kept(ffi::gate_report);

impl Kept {
    /// Its text, of `length` bytes.
    fn read(&self, length: usize) -> Result<Report, NoMemory> {
        let mut text = error::room(length)?;
        let mut read = 0;
        // SAFETY: the handle is the library's own and not freed; `text` has the room that is told.
        let status = unsafe { ffi::gate_report_read(self.0, text.as_mut_ptr(), length, &mut read) };
        // SAFETY: `read` bytes are written, if it is no error.
        unsafe { Report::of(status, text, read) }
    }
}

impl Drop for Kept {
    fn drop(&mut self) {
        // SAFETY: the handle is the library's own, and freed here alone.
        unsafe { ffi::gate_report_free(self.0) }
    }
}

/// Judges a module and runs the calls of a text, each on an instance of its own.
///
/// ```
/// let module = std::fs::read("../add.wasm")?;
/// let report = gate::run(&module, b"add\ti32:40\ti32:2\n", gate::Settings::default())?;
/// assert_eq!(report.status(), gate::Status::Reported);
/// assert!(report.text().starts_with("0 values i32:42 fuel 1\n"));
/// # Ok::<(), Box<dyn std::error::Error>>(())
/// ```
///
/// # Errors
///
/// [`NoMemory`], where memory was refused. A call that ran out of memory by itself has a line in the report.
pub fn run(module: &[u8], calls: &[u8], settings: Settings) -> Result<Report, NoMemory> {
    let settings = settings.to_c();
    let write = |out, room, length: &mut usize, kept: &mut ffi::gate_report| {
        // SAFETY: the slices are borrowed for the call; `out`, `length` and `kept` are reached by nobody else.
        unsafe {
            ffi::gate_run(
                module.as_ptr(),
                module.len(),
                calls.as_ptr(),
                calls.len(),
                &settings,
                out,
                room,
                length,
                kept,
            )
        }
    };
    // SAFETY: it is `gate_run`.
    unsafe { Report::written(write) }
}
