//! What a module imports and exports, and the numbers by which a host may refuse it.
use crate::error::{self, beyond_interface};
use crate::explanation::text_by;
use crate::{ffi, Module, NoMemory, Settings};
use std::fmt;

/// What is exported under a name. It displays as `add: function (i32, i32) -> (i32)`.
#[derive(Clone, Debug, PartialEq, Eq, Hash)]
pub struct Export {
    /// The name.
    pub name: String,
    /// What it is.
    pub item: Item,
    /// Its number among those of its kind, imported ones counted first.
    pub index: u32,
}

/// What is imported: the item of that name of another module. It displays as `env log: function (i32) -> ()`.
#[derive(Clone, Debug, PartialEq, Eq, Hash)]
pub struct Import {
    /// The name of the other module.
    pub module: String,
    /// The item's name there.
    pub name: String,
    /// What it is.
    pub item: Item,
}

/// Numbers by which a host may refuse a module: those of the formula in SECURITY, "Time of a run".
#[derive(Clone, Copy, Debug, PartialEq, Eq, Hash)]
pub struct Measures {
    /// The tokens of the longest body.
    pub tokens: u64,
    /// The most locals of a function: its parameters, and those that it declares.
    pub locals: u64,
    /// The longest list of types: the parameters or the results of a function type.
    pub values: u64,
}

/// What may be imported or exported.
#[derive(Clone, Debug, PartialEq, Eq, Hash)]
pub enum Item {
    /// A function of this type.
    Function(FunctionType),
    /// A table.
    Table,
    /// A memory.
    Memory,
    /// A global.
    Global,
}

/// The types of a function's parameters and results, in their order.
#[derive(Clone, Debug, PartialEq, Eq, Hash)]
pub struct FunctionType {
    /// The parameters.
    pub params: Vec<ValueType>,
    /// The results, the lowest first.
    pub results: Vec<ValueType>,
}

/// The type of a value. No module with floats is run.
#[derive(Clone, Copy, Debug, PartialEq, Eq, Hash)]
pub enum ValueType {
    /// 32 bits.
    I32,
    /// 64 bits.
    I64,
    /// A float of 32 bits.
    F32,
    /// A float of 64 bits.
    F64,
}

impl ValueType {
    /// The type that this byte spells in a module.
    fn of(byte: u8) -> Self {
        match byte {
            0x7F => ValueType::I32,
            0x7E => ValueType::I64,
            0x7D => ValueType::F32,
            0x7C => ValueType::F64,
            byte => beyond_interface("type", byte),
        }
    }
}

fn types_of(bytes: &[u8]) -> Result<Vec<ValueType>, NoMemory> {
    let mut types = error::room(bytes.len())?;
    types.extend(bytes.iter().map(|byte| ValueType::of(*byte)));
    Ok(types)
}

/// A function of the library that writes a name of an item.
type WritesName = unsafe extern "C" fn(ffi::gate_module, u64, *mut u8, usize, *mut usize) -> u32;

/// Judges a module, and gives what `gate exports` prints: its imports, exports and custom sections, and whether an instance starts within
/// these limits, and if not, why and where. Of a refused module it is the line of the verdict.
///
/// ```
/// let text = gate::exports_text(&std::fs::read("../add.wasm")?, gate::Settings::default())?;
/// assert_eq!(text, "function 0 \"add\" [i32 i32] -> [i32]\nstarts\n");
/// # Ok::<(), Box<dyn std::error::Error>>(())
/// ```
///
/// # Errors
///
/// [`NoMemory`], where memory was refused.
pub fn exports_text(bytes: &[u8], settings: Settings) -> Result<String, NoMemory> {
    let settings = settings.to_c();
    text_by(|out, room, length| {
        // SAFETY: the slice is borrowed for the call; `out` has the room that is told, and nobody else reaches it or `length`.
        unsafe { ffi::gate_exports_text(bytes.as_ptr(), bytes.len(), &settings, out, room, length) }
    })
}

impl Module<'_> {
    /// How many bytes the module's lists take, its own bytes apart.
    #[must_use]
    pub fn size(&self) -> u64 {
        // SAFETY: the handle is not freed, and no other call has it.
        unsafe { ffi::gate_module_size(self.handle) }
    }

    /// What the module exports, in its order.
    ///
    /// ```
    /// let bytes = std::fs::read("../add.wasm")?;
    /// let module = gate::Module::new(&bytes)?;
    /// assert_eq!(module.exports()?[0].to_string(), "add: function (i32, i32) -> (i32)");
    /// # Ok::<(), Box<dyn std::error::Error>>(())
    /// ```
    ///
    /// # Errors
    ///
    /// [`NoMemory`], where memory was refused.
    pub fn exports(&self) -> Result<Vec<Export>, NoMemory> {
        // SAFETY: the handle is not freed, and no other call has it.
        let count = unsafe { ffi::gate_module_export_count(self.handle) };
        let mut exports = error::room(usize::try_from(count).map_err(|_| NoMemory)?)?;
        for number in 0..count {
            let mut told = ffi::gate_export::default();
            // SAFETY: likewise, and `told` is reached by nobody else.
            match unsafe { ffi::gate_module_export(self.handle, number, &mut told) } {
                ffi::GATE_OK => exports.push(self.export_of(self.name_by(ffi::gate_module_export_name, number)?, &told)?),
                status => beyond_interface("status", status),
            }
        }
        Ok(exports)
    }

    /// What the module imports, in its order. No call of a module with imports runs.
    ///
    /// # Errors
    ///
    /// [`NoMemory`], where memory was refused.
    pub fn imports(&self) -> Result<Vec<Import>, NoMemory> {
        // SAFETY: the handle is not freed, and no other call has it.
        let count = unsafe { ffi::gate_module_import_count(self.handle) };
        let mut imports = error::room(usize::try_from(count).map_err(|_| NoMemory)?)?;
        let mut functions = 0;
        for number in 0..count {
            let mut told = ffi::gate_import::default();
            // SAFETY: likewise, and `told` is reached by nobody else.
            match unsafe { ffi::gate_module_import(self.handle, number, &mut told) } {
                ffi::GATE_OK => {}
                status => beyond_interface("status", status),
            }
            imports.push(Import {
                module: self.name_by(ffi::gate_module_import_module, number)?,
                name: self.name_by(ffi::gate_module_import_name, number)?,
                item: self.item_of(told.kind, functions, told.params, told.results)?,
            });
            functions += u32::from(told.kind == 0);
        }
        Ok(imports)
    }

    /// Numbers by which a host may refuse the module.
    ///
    /// ```
    /// let bytes = std::fs::read("../add.wasm")?;
    /// let measures = gate::Module::new(&bytes)?.measures();
    /// assert_eq!((measures.tokens, measures.locals, measures.values), (4, 2, 2));
    /// # Ok::<(), Box<dyn std::error::Error>>(())
    /// ```
    #[must_use]
    pub fn measures(&self) -> Measures {
        let mut told = ffi::gate_measures::default();
        // SAFETY: the handle is not freed, and no other call has it; `told` is reached by nobody else.
        match unsafe { ffi::gate_module_measures(self.handle, &mut told) } {
            ffi::GATE_OK => Measures {
                tokens: told.tokens,
                locals: told.locals,
                values: told.values,
            },
            status => beyond_interface("status", status),
        }
    }

    /// The export of that name.
    ///
    /// # Errors
    ///
    /// [`NoMemory`], where memory was refused.
    pub fn find(&self, name: &str) -> Result<Option<Export>, NoMemory> {
        let Some(told) = self.told(name) else { return Ok(None) };
        let mut owned = String::new();
        owned.try_reserve_exact(name.len()).map_err(|_| NoMemory)?;
        owned.push_str(name);
        self.export_of(owned, &told).map(Some)
    }

    /// The numbers of the export of that name.
    pub(crate) fn told(&self, name: &str) -> Option<ffi::gate_export> {
        let mut told = ffi::gate_export::default();
        // SAFETY: the handle is not freed, and no other call has it; the name is borrowed for the call.
        match unsafe { ffi::gate_module_find(self.handle, name.as_ptr(), name.len(), &mut told) } {
            ffi::GATE_OK => Some(told),
            ffi::GATE_NOTHING => None,
            status => beyond_interface("status", status),
        }
    }

    fn export_of(&self, name: String, told: &ffi::gate_export) -> Result<Export, NoMemory> {
        Ok(Export {
            name,
            item: self.item_of(told.kind, told.index, told.params, told.results)?,
            index: told.index,
        })
    }

    fn item_of(&self, kind: u32, index: u32, params: u32, results: u32) -> Result<Item, NoMemory> {
        Ok(match kind {
            0 => Item::Function(self.type_of(index, params, results)?),
            1 => Item::Table,
            2 => Item::Memory,
            3 => Item::Global,
            kind => beyond_interface("kind of item", kind),
        })
    }

    /// The name that a function of the library writes of an item of that number.
    fn name_by(&self, write: WritesName, number: u64) -> Result<String, NoMemory> {
        let mut bytes = error::zeros(64)?;
        loop {
            let mut length = 0;
            // SAFETY: the handle is not freed, and no other call has it; the vector has as many bytes as are told.
            match unsafe { write(self.handle, number, bytes.as_mut_ptr(), bytes.len(), &mut length) } {
                ffi::GATE_OK => bytes.truncate(length),
                ffi::GATE_SHORT_BUFFER => {
                    bytes = error::zeros(length)?;
                    continue;
                }
                status => beyond_interface("status", status),
            }
            return Ok(String::from_utf8(bytes).unwrap_or_else(|_| beyond_interface("name of item", number)));
        }
    }

    fn type_of(&self, function: u32, params: u32, results: u32) -> Result<FunctionType, NoMemory> {
        let (mut params, mut results) = (error::zeros(params as usize)?, error::zeros(results as usize)?);
        // SAFETY: the handle is not freed, and no other call has it; the vectors have as many bytes as are told.
        let status = unsafe {
            ffi::gate_module_types(
                self.handle,
                function,
                params.as_mut_ptr(),
                params.len(),
                results.as_mut_ptr(),
                results.len(),
            )
        };
        match status {
            ffi::GATE_OK => Ok(FunctionType {
                params: types_of(&params)?,
                results: types_of(&results)?,
            }),
            status => beyond_interface("status", status),
        }
    }
}

impl fmt::Display for ValueType {
    fn fmt(&self, f: &mut fmt::Formatter<'_>) -> fmt::Result {
        f.write_str(match self {
            ValueType::I32 => "i32",
            ValueType::I64 => "i64",
            ValueType::F32 => "f32",
            ValueType::F64 => "f64",
        })
    }
}

fn write_types(types: &[ValueType], f: &mut fmt::Formatter<'_>) -> fmt::Result {
    f.write_str("(")?;
    let mut before = "";
    for of_type in types {
        write!(f, "{before}{of_type}")?;
        before = ", ";
    }
    f.write_str(")")
}

impl fmt::Display for FunctionType {
    fn fmt(&self, f: &mut fmt::Formatter<'_>) -> fmt::Result {
        write_types(&self.params, f)?;
        f.write_str(" -> ")?;
        write_types(&self.results, f)
    }
}

impl fmt::Display for Item {
    fn fmt(&self, f: &mut fmt::Formatter<'_>) -> fmt::Result {
        match self {
            Item::Function(of_type) => write!(f, "function {of_type}"),
            Item::Table => f.write_str("table"),
            Item::Memory => f.write_str("memory"),
            Item::Global => f.write_str("global"),
        }
    }
}

impl fmt::Display for Export {
    fn fmt(&self, f: &mut fmt::Formatter<'_>) -> fmt::Result {
        match &self.item {
            Item::Function(_) => write!(f, "{}: {}", self.name, self.item),
            _ => write!(f, "{}: {} {}", self.name, self.item, self.index),
        }
    }
}

impl fmt::Display for Import {
    fn fmt(&self, f: &mut fmt::Formatter<'_>) -> fmt::Result {
        write!(f, "{} {}: {}", self.module, self.name, self.item)
    }
}
