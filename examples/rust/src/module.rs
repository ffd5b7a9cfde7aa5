//! An accepted module: judged once, called often.
use crate::call::Operands;
use crate::error::beyond_interface;
use crate::ffi;
use crate::{explain, Call, CheckError, End, NoMemory, NotStarted, Report, Settings, Value};
use std::marker::PhantomData;
use std::ptr;
use std::slice;
use std::sync::{Arc, Mutex, PoisonError};

/// An accepted module. Each call has an instance of its own, so no call sees what another one wrote; an
/// [`Instance`](crate::Instance), by [`Module::instance`], goes on from call to call.
///
/// ```
/// use gate::{End, Module, Settings, Value};
///
/// let bytes = std::fs::read("../add.wasm")?;
/// let module = Module::new(&bytes)?;
/// let call = module.call("add", &[Value::I32(40), Value::I32(2)], Settings::default())?;
/// assert_eq!(call.end, End::Values(vec![Value::I32(42)]));
/// assert_eq!(call.fuel, 1);
/// # Ok::<(), Box<dyn std::error::Error>>(())
/// ```
///
/// A module may go to another thread, but two threads share none, since a call has its handle to itself. Each thread has one
/// of its own, by [`Module::try_clone`], or out of a [`SharedModule`]:
///
/// ```
/// # use gate::{End, Module, Settings, Value};
/// # let bytes = std::fs::read("../add.wasm")?;
/// # let module = Module::new(&bytes)?;
/// std::thread::scope(|scope| {
///     for number in 0..4 {
///         let module = module.try_clone()?;
///         scope.spawn(move || module.call("add", &[number.into(), 1.into()], Settings::default()));
///     }
///     Ok::<(), gate::NoMemory>(())
/// })?;
/// # Ok::<(), Box<dyn std::error::Error>>(())
/// ```
///
/// ```compile_fail
/// # let bytes = std::fs::read("../add.wasm").unwrap();
/// let module = gate::Module::new(&bytes).unwrap();
/// std::thread::scope(|scope| {
///     scope.spawn(|| module.try_clone()); // error: `Module` cannot be shared between threads
/// });
/// ```
#[derive(Debug)]
pub struct Module<'a> {
    pub(crate) handle: ffi::gate_module,
    /// The bytes, where the module owns them.
    owned: Option<Arc<Vec<u8>>>,
    borrowed: PhantomData<&'a [u8]>,
}

// SAFETY: the library proves that what is behind a handle may go to another thread. `Module` is not `Sync`, and must not be:
// the functions take `&self`, and a call has its handle to itself by the library's contract. On one thread that holds, since
// the library calls nothing of ours back.
unsafe impl Send for Module<'_> {}

impl<'a> Module<'a> {
    /// Judges a module, which borrows its bytes.
    ///
    /// # Errors
    ///
    /// A [`CheckError`]: where and why it is refused, or that memory was.
    pub fn new(bytes: &'a [u8]) -> Result<Self, CheckError> {
        let mut verdict = ffi::gate_verdict::default();
        let mut handle = ffi::gate_module { at: ptr::null_mut() };
        // SAFETY: the bytes stay as they are until the handle is freed, since `Module` borrows them.
        match unsafe { ffi::gate_module_new(bytes.as_ptr(), bytes.len(), &mut verdict, &mut handle) } {
            ffi::GATE_OK => Ok(Self::of(handle, None)),
            ffi::GATE_MODULE_REFUSED => Err(explain(bytes)?.into()),
            ffi::GATE_NO_MEMORY => Err(CheckError::NoMemory),
            status => beyond_interface("status", status),
        }
    }

    fn of(handle: ffi::gate_module, owned: Option<Arc<Vec<u8>>>) -> Self {
        Module {
            handle,
            owned,
            borrowed: PhantomData,
        }
    }

    /// Calls an export on an instance of its own. Which arguments it takes, [`find`](Module::find) tells.
    ///
    /// # Errors
    ///
    /// [`NoMemory`], where memory was refused, also to the call itself. Each other end is one of [`Call`].
    pub fn call(&self, name: &str, args: &[Value], settings: Settings) -> Result<Call, NoMemory> {
        let mut operands = Operands::new(args, self.results_of(name))?;
        // SAFETY: the handle is not freed, and no other call has it; the slices are borrowed for the call; `results` and `ended`
        // are reached by nobody else.
        let status = unsafe {
            ffi::gate_module_call(
                self.handle,
                name.as_ptr(),
                name.len(),
                operands.args.as_ptr(),
                operands.args.len(),
                &settings.to_c(),
                operands.results.as_mut_ptr(),
                operands.results.len(),
                &mut operands.ended,
            )
        };
        match status {
            ffi::GATE_OK => operands.call(),
            ffi::GATE_NO_MEMORY => Err(NoMemory),
            status => beyond_interface("status", status),
        }
    }

    /// How many results the function of that name has; 0 where there is none.
    pub(crate) fn results_of(&self, name: &str) -> usize {
        self.told(name).map_or(0, |told| told.results as usize)
    }

    /// Whether a call would have an instance, and if not, why. Nothing runs: a start function may still end each call.
    ///
    /// # Errors
    ///
    /// [`NoMemory`], where memory was refused.
    pub fn starts(&self, settings: Settings) -> Result<Option<NotStarted>, NoMemory> {
        let mut ended = ffi::gate_call::default();
        // SAFETY: the handle is not freed, and no other call has it.
        match unsafe { ffi::gate_module_starts(self.handle, &settings.to_c(), &mut ended) } {
            ffi::GATE_OK => {}
            status => beyond_interface("status", status),
        }
        match Call::of(&ended, Vec::new())?.end {
            End::NotStarted(reason) => Ok(Some(reason)),
            _ => Ok(None),
        }
    }

    /// Runs the calls of a text, as [`run`](crate::run) does.
    ///
    /// # Errors
    ///
    /// [`NoMemory`], where memory was refused. A call that ran out of memory by itself has a line in the report.
    pub fn run(&self, calls: &[u8], settings: Settings) -> Result<Report, NoMemory> {
        let settings = settings.to_c();
        let write = |out, room, length: &mut usize, kept: &mut ffi::gate_report| {
            // SAFETY: the handle is not freed, and no other call has it; the slice is borrowed for the call; `out`, `length`
            // and `kept` are reached by nobody else.
            unsafe { ffi::gate_module_run(self.handle, calls.as_ptr(), calls.len(), &settings, out, room, length, kept) }
        };
        // SAFETY: it is `gate_module_run`.
        unsafe { Report::written(write) }
    }

    /// The same module once more, for another thread. Nothing is judged again and no byte is copied.
    ///
    /// # Errors
    ///
    /// [`NoMemory`], where memory was refused.
    pub fn try_clone(&self) -> Result<Self, NoMemory> {
        let mut other = ffi::gate_module { at: ptr::null_mut() };
        // SAFETY: the handle is not freed, and no other call has it.
        match unsafe { ffi::gate_module_share(self.handle, &mut other) } {
            ffi::GATE_OK => Ok(Self::of(other, self.owned.clone())),
            ffi::GATE_NO_MEMORY => Err(NoMemory),
            status => beyond_interface("status", status),
        }
    }
}

impl Module<'static> {
    /// Judges a module that owns its bytes, so that it can be kept anywhere. Where it is refused the bytes are dropped.
    ///
    /// ```
    /// use gate::{Module, Settings};
    ///
    /// struct Plugin {
    ///     module: Module<'static>,
    /// }
    ///
    /// let plugin = Plugin { module: Module::from_vec(std::fs::read("../add.wasm")?)? };
    /// let call = plugin.module.call("add", &[1.into(), 2.into()], Settings::default())?;
    /// assert_eq!(call.to_string(), "values i32:3 fuel 1");
    /// # Ok::<(), Box<dyn std::error::Error>>(())
    /// ```
    ///
    /// # Errors
    ///
    /// Those of [`Module::new`].
    pub fn from_vec(bytes: Vec<u8>) -> Result<Self, CheckError> {
        let bytes = Arc::new(bytes);
        // SAFETY: the module and its clones keep the bytes until after their handles are freed, nobody writes what an `Arc`
        // shares, and the bytes of a vector do not move with it.
        let borrowed: &'static [u8] = unsafe { slice::from_raw_parts(bytes.as_ptr(), bytes.len()) };
        let mut module = Module::new(borrowed)?;
        module.owned = Some(bytes);
        Ok(module)
    }
}

/// A module that threads share: each takes a [`Module`] of its own from it, under a lock that is held for that long.
///
/// ```
/// use gate::{Settings, SharedModule};
/// use std::sync::Arc;
/// use std::thread;
///
/// let shared = Arc::new(SharedModule::new(std::fs::read("../add.wasm")?)?);
/// let threads: Vec<_> = (0..4)
///     .map(|number| {
///         let shared = Arc::clone(&shared);
///         thread::spawn(move || shared.module()?.call("add", &[number.into(), 1.into()], Settings::default()))
///     })
///     .collect();
/// for (number, thread) in threads.into_iter().enumerate() {
///     assert_eq!(thread.join().unwrap()?.to_string(), format!("values i32:{} fuel 1", number + 1));
/// }
/// # Ok::<(), Box<dyn std::error::Error>>(())
/// ```
///
/// A thread that calls often keeps its `Module`: a call needs no lock.
#[derive(Debug)]
pub struct SharedModule(Mutex<Module<'static>>);

impl SharedModule {
    /// Judges a module, whose bytes it owns. Where it is refused the bytes are dropped.
    ///
    /// # Errors
    ///
    /// Those of [`Module::new`].
    pub fn new(bytes: Vec<u8>) -> Result<Self, CheckError> {
        Module::from_vec(bytes).map(Self::from)
    }

    /// The module, for the thread that asks. Nothing is judged again and no byte is copied.
    ///
    /// # Errors
    ///
    /// [`NoMemory`], where memory was refused.
    pub fn module(&self) -> Result<Module<'static>, NoMemory> {
        // A thread that panicked under the lock has left the module as it was: `try_clone` changes nothing of it.
        self.0.lock().unwrap_or_else(PoisonError::into_inner).try_clone()
    }
}

impl From<Module<'static>> for SharedModule {
    fn from(module: Module<'static>) -> Self {
        SharedModule(Mutex::new(module))
    }
}

impl Drop for Module<'_> {
    fn drop(&mut self) {
        // SAFETY: the handle is the library's own, and freed here alone; the bytes are dropped after this.
        unsafe { ffi::gate_module_free(self.handle) }
    }
}
