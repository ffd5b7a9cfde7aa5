//! An instance that goes on from call to call.
use crate::call::Operands;
use crate::error::{self, beyond_interface};
use crate::{ffi, Call, End, InstanceError, Module, Settings, Value};
use std::ptr;

/// An instance of a module: what one call leaves in its memory, its globals and its table, the next one finds. A host hands it bytes
/// through the memory:
///
/// ```
/// use gate::{Module, Settings};
///
/// let bytes = std::fs::read("../guests/upper.wasm")?;
/// let limits = Settings::default();
/// let mut plugin = Module::new(&bytes)?.instance(limits)?;
/// let address: u32 = plugin.call("alloc", &[5.into()], limits)?.value()?;
/// plugin.write(address.into(), b"hello")?;
/// let answer: u64 = plugin.call("handle", &[address.into(), 5.into()], limits)?.value()?;
/// assert_eq!(plugin.read_vec(answer >> 32, answer & 0xFFFF_FFFF)?, b"HELLO");
/// # Ok::<(), Box<dyn std::error::Error>>(())
/// ```
///
/// It borrows the bytes of its module, and not the [`Module`], which may be dropped before it. Of a module that owns its bytes
/// ([`Module::from_vec`]) it is an `Instance<'static>`, which can be kept anywhere.
///
/// ```compile_fail
/// # let mut bytes = std::fs::read("../add.wasm").unwrap();
/// let instance = gate::Module::new(&bytes).unwrap().instance(gate::Settings::default()).unwrap();
/// bytes.clear(); // error: the instance borrows them
/// instance.memory_size();
/// ```
///
/// It may go to another thread, but two threads share none.
///
/// ```compile_fail
/// # let bytes = std::fs::read("../add.wasm").unwrap();
/// let instance = gate::Module::new(&bytes).unwrap().instance(gate::Settings::default()).unwrap();
/// std::thread::scope(|scope| {
///     scope.spawn(|| instance.memory_size()); // error: `Instance` cannot be shared between threads
/// });
/// ```
#[derive(Debug)]
pub struct Instance<'a> {
    handle: ffi::gate_instance,
    /// A handle of its own.
    module: Module<'a>,
    /// What the start function cost; an error where the last reset made no instance.
    begun: Result<u32, InstanceError>,
}

// SAFETY: the library proves that what is behind a handle may go to another thread. Nor is `Instance` `Sync`: as for `Module`.
unsafe impl Send for Instance<'_> {}

impl<'a> Module<'a> {
    /// Makes an instance, and runs the start function, under these limits. How many pages its memory may have is said here; fuel and
    /// frames are said anew for each call.
    ///
    /// # Errors
    ///
    /// [`NoInstance`](InstanceError::NoInstance) and [`NoMemory`](InstanceError::NoMemory):
    ///
    /// ```
    /// use gate::{End, InstanceError, Module, NotStarted, Settings};
    ///
    /// let bytes = std::fs::read("../guests/upper.wasm")?; // its memory has a page
    /// match Module::new(&bytes)?.instance(Settings::new(0, 1, 0)?) {
    ///     Err(InstanceError::NoInstance(call)) => assert_eq!(call.end, End::NotStarted(NotStarted::MemoryLimit)),
    ///     other => panic!("{other:?}"),
    /// }
    /// # Ok::<(), Box<dyn std::error::Error>>(())
    /// ```
    pub fn instance(&self, settings: Settings) -> Result<Instance<'a>, InstanceError> {
        let module = self.try_clone()?;
        let mut handle = ffi::gate_instance { at: ptr::null_mut() };
        let mut ended = ffi::gate_call::default();
        // SAFETY: the module's handle is not freed, and no other call has it; `handle` and `ended` are reached by nobody else.
        let status = unsafe { ffi::gate_instance_new(module.handle, &settings.to_c(), &mut handle, &mut ended) };
        let fuel = start_fuel(status, &ended)?;
        Ok(Instance {
            handle,
            module,
            begun: Ok(fuel),
        })
    }
}

/// A function of the instances of a module, from [`Instance::function`].
#[derive(Clone, Copy, Debug)]
pub struct Function {
    number: u64,
    results: usize,
}

/// What the start function cost where there is an instance.
fn start_fuel(status: u32, ended: &ffi::gate_call) -> Result<u32, InstanceError> {
    match status {
        ffi::GATE_OK => Ok(ended.fuel),
        ffi::GATE_NO_INSTANCE => Err(InstanceError::NoInstance(Call::of(ended, Vec::new())?)),
        ffi::GATE_NO_MEMORY => Err(InstanceError::NoMemory),
        status => beyond_interface("status", status),
    }
}

/// What a status says of bytes.
fn done(status: u32) -> Result<(), InstanceError> {
    match status {
        ffi::GATE_OK => Ok(()),
        ffi::GATE_OUTSIDE => Err(InstanceError::Outside),
        status => beyond_interface("status", status),
    }
}

impl<'a> Instance<'a> {
    /// Calls an export on the instance as it is, under the fuel and the frames of the settings. After a trap, or where fuel or frames
    /// ran out, it is as the call left it, and goes on.
    ///
    /// # Errors
    ///
    /// [`NoMemory`](InstanceError::NoMemory); where the last [`reset`](Instance::reset) made no instance, that of the reset.
    pub fn call(&mut self, name: &str, args: &[Value], settings: Settings) -> Result<Call, InstanceError> {
        let mut operands = Operands::new(args, self.module.results_of(name))?;
        // SAFETY: the handle is not freed, and no other call has it; the slices are borrowed for the call; `results` and `ended`
        // are reached by nobody else.
        let status = unsafe {
            ffi::gate_instance_call(
                self.handle,
                name.as_ptr(),
                name.len(),
                operands.args.as_ptr(),
                operands.args.len(),
                &settings.to_c(),
                operands.results.as_mut_ptr(),
                operands.results.len(),
                &mut operands.ended,
            )
        };
        self.ended(status, operands)
    }

    /// The function that is exported under that name, for who calls it often; `None` where there is none.
    ///
    /// ```
    /// # use gate::{Module, Settings};
    /// # let bytes = std::fs::read("../add.wasm")?;
    /// # let limits = Settings::default();
    /// let mut instance = Module::new(&bytes)?.instance(limits)?;
    /// let add = instance.function("add").ok_or("no function add")?;
    /// assert_eq!(instance.call_at(add, &[40.into(), 2.into()], limits)?.value::<i32>()?, 42);
    /// # Ok::<(), Box<dyn std::error::Error>>(())
    /// ```
    #[must_use]
    pub fn function(&self, name: &str) -> Option<Function> {
        let told = self.module.told(name).filter(|told| told.kind == 0)?; // a function
        let mut number = 0;
        // SAFETY: the handle is not freed, and no other call has it; the name is borrowed for the call; `number` is reached by nobody
        // else.
        match unsafe { ffi::gate_instance_find(self.handle, name.as_ptr(), name.len(), &mut number) } {
            ffi::GATE_OK => Some(Function {
                number,
                results: told.results as usize,
            }),
            status => beyond_interface("status", status),
        }
    }

    /// As [`Instance::call`], of a function that was looked up before, in an instance of the same module.
    ///
    /// # Errors
    ///
    /// As of [`Instance::call`].
    pub fn call_at(&mut self, function: Function, args: &[Value], settings: Settings) -> Result<Call, InstanceError> {
        let mut operands = Operands::new(args, function.results)?;
        // SAFETY: as in `call`.
        let status = unsafe {
            ffi::gate_instance_call_at(
                self.handle,
                function.number,
                operands.args.as_ptr(),
                operands.args.len(),
                &settings.to_c(),
                operands.results.as_mut_ptr(),
                operands.results.len(),
                &mut operands.ended,
            )
        };
        self.ended(status, operands)
    }

    /// What a call gave that answered with this status.
    fn ended(&self, status: u32, operands: Operands) -> Result<Call, InstanceError> {
        match (status, &self.begun) {
            (ffi::GATE_OK, _) => Ok(operands.call()?),
            (ffi::GATE_NO_MEMORY, _) => Err(InstanceError::NoMemory),
            (ffi::GATE_NO_INSTANCE, Err(error)) => Err(error.clone()),
            (status, _) => beyond_interface("status", status),
        }
    }

    /// How many bytes its memory has; 0 where it has none.
    #[must_use]
    pub fn memory_size(&self) -> u64 {
        let mut size = 0;
        // SAFETY: the handle is not freed, and no other call has it; `size` is reached by nobody else.
        match unsafe { ffi::gate_instance_memory_size(self.handle, &mut size) } {
            ffi::GATE_OK => size,
            status => beyond_interface("status", status),
        }
    }

    /// Copies bytes of its memory, from `at` on.
    ///
    /// # Errors
    ///
    /// [`Outside`](InstanceError::Outside); then `out` is as it was.
    pub fn read(&self, at: u64, out: &mut [u8]) -> Result<(), InstanceError> {
        // SAFETY: the handle is not freed, and no other call has it; the slice is borrowed for the call.
        done(unsafe { ffi::gate_instance_read(self.handle, at, out.as_mut_ptr(), out.len()) })
    }

    /// Bytes of its memory, from `at` on. Room is taken only for bytes that are there, so a plug-in may tell any numbers.
    ///
    /// # Errors
    ///
    /// [`Outside`](InstanceError::Outside) and [`NoMemory`](InstanceError::NoMemory).
    pub fn read_vec(&self, at: u64, length: u64) -> Result<Vec<u8>, InstanceError> {
        let is_inside = at.checked_add(length).is_some_and(|end| end <= self.memory_size());
        if !is_inside {
            return Err(InstanceError::Outside);
        }
        let mut bytes = error::zeros(usize::try_from(length).map_err(|_| InstanceError::NoMemory)?)?;
        self.read(at, &mut bytes)?;
        Ok(bytes)
    }

    /// Writes bytes to its memory, from `at` on.
    ///
    /// # Errors
    ///
    /// [`Outside`](InstanceError::Outside); then nothing is written.
    pub fn write(&mut self, at: u64, bytes: &[u8]) -> Result<(), InstanceError> {
        // SAFETY: the handle is not freed, and no other call has it; the slice is borrowed for the call.
        done(unsafe { ffi::gate_instance_write(self.handle, at, bytes.as_ptr(), bytes.len()) })
    }

    /// The value of an exported global.
    ///
    /// # Errors
    ///
    /// [`NoGlobal`](InstanceError::NoGlobal).
    pub fn global(&self, name: &str) -> Result<Value, InstanceError> {
        let mut value = ffi::gate_value::default();
        // SAFETY: the handle is not freed, and no other call has it; the name is borrowed for the call.
        match unsafe { ffi::gate_instance_global(self.handle, name.as_ptr(), name.len(), &mut value) } {
            ffi::GATE_OK => Ok(Value::of(value)),
            ffi::GATE_NO_GLOBAL => Err(InstanceError::NoGlobal),
            status => beyond_interface("status", status),
        }
    }

    /// As [`call`](Instance::call), and after each end but values a [`reset`](Instance::reset), which a plug-in of a compiler wants: a trap
    /// leaves its stack pointer where it was.
    ///
    /// # Errors
    ///
    /// Those of the reset, else those of the call.
    pub fn call_or_reset(&mut self, name: &str, args: &[Value], settings: Settings) -> Result<Call, InstanceError> {
        let made = self.call(name, args, settings);
        if !matches!(made, Ok(Call { end: End::Values(_), .. })) {
            self.reset()?;
        }
        made
    }

    /// Ends the instance, and makes a new one in its memory, under the limits that it was made with.
    ///
    /// # Errors
    ///
    /// Those of [`Module::instance`]; then there is no instance, and another reset may make one.
    pub fn reset(&mut self) -> Result<(), InstanceError> {
        let mut ended = ffi::gate_call::default();
        // SAFETY: the handle is not freed, and no other call has it; `ended` is reached by nobody else.
        let status = unsafe { ffi::gate_instance_reset(self.handle, &mut ended) };
        self.begun = start_fuel(status, &ended);
        self.begun.clone().map(drop)
    }

    /// What the start function cost; 0 where there is none, and where the last reset made no instance.
    #[must_use]
    pub fn start_fuel(&self) -> u32 {
        self.begun.as_ref().map_or(0, |fuel| *fuel)
    }

    /// The module.
    #[must_use]
    pub fn module(&self) -> &Module<'a> {
        &self.module
    }
}

impl Drop for Instance<'_> {
    fn drop(&mut self) {
        // SAFETY: the handle is the library's own, and freed here alone; the module, and with it the bytes, is dropped after this.
        unsafe { ffi::gate_instance_free(self.handle) }
    }
}
