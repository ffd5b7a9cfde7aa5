//! Instances that go on from call to call.
mod common;

use common::{example, module, sevens, HEADER};
use gate::{Call, CallError, End, Instance, InstanceError, Module, NoMemory, NotStarted, Settings, Trap, Value, WidthError};
use std::error::Error;
use std::thread;

/// Its start function writes 5 at 8; a segment writes 7 at 0. The memory of one page may grow to two.
///
/// `add` adds its argument to the global `count`, 0 at first, and gives the sum; `stop` sets it to 100 and traps; `grow` grows the memory.
/// `wide` is the global -5, of 64 bits.
fn goes_on() -> Vec<u8> {
    module(&[
        (1, &[2, 0x60, 0, 0, 0x60, 1, 0x7f, 1, 0x7f]),
        (3, &[4, 0, 1, 0, 1]),
        (5, &[1, 1, 1, 2]),
        (6, &[2, 0x7f, 1, 0x41, 0, 0x0b, 0x7e, 0, 0x42, 0x7b, 0x0b]),
        (7, b"\x05\x05count\x03\0\x04wide\x03\x01\x03add\0\x01\x04stop\0\x02\x04grow\0\x03"),
        (8, &[0]),
        (10, &[&[4][..], START, ADD, STOP, GROW].concat()),
        (11, &[1, 0, 0x41, 0, 0x0b, 1, 7]),
    ])
}

const START: &[u8] = &[9, 0, 0x41, 8, 0x41, 5, 0x3a, 0, 0, 0x0b];
const ADD: &[u8] = &[11, 0, 0x23, 0, 0x20, 0, 0x6a, 0x24, 0, 0x23, 0, 0x0b];
const STOP: &[u8] = &[8, 0, 0x41, 0xe4, 0, 0x24, 0, 0, 0x0b];
const GROW: &[u8] = &[6, 0, 0x20, 0, 0x40, 0, 0x0b];

fn instance_of(bytes: Vec<u8>) -> Instance<'static> {
    Module::from_vec(bytes).unwrap().instance(Settings::default()).unwrap()
}

/// The line of a call under the usual limits.
fn line(instance: &mut Instance<'_>, name: &str, args: &[Value]) -> String {
    instance.call(name, args, Settings::default()).unwrap().to_string()
}

/// It is as `goes_on` begins.
fn expect_begun(instance: &Instance<'_>) {
    assert_eq!((instance.start_fuel(), instance.memory_size()), (1, 65_536));
    assert_eq!(instance.read_vec(0, 9), Ok(vec![7, 0, 0, 0, 0, 0, 0, 0, 5]));
    assert_eq!(instance.read_vec(65_535, 1), Ok(vec![0]));
    assert_eq!(instance.global("count"), Ok(Value::I32(0)));
}

#[test]
fn a_call_finds_what_another_one_left() {
    let mut instance = instance_of(goes_on());
    expect_begun(&instance);
    assert_eq!(line(&mut instance, "add", &[2.into()]), "values i32:2 fuel 1");
    assert_eq!(line(&mut instance, "add", &[3.into()]), "values i32:5 fuel 1");
    assert_eq!(instance.global("count"), Ok(Value::I32(5)));
    // An instance sees nothing of another one.
    let other = instance.module().instance(Settings::default()).unwrap();
    expect_begun(&other);
}

#[test]
fn it_goes_on_after_a_trap_and_without_fuel() {
    let mut instance = instance_of(goes_on());
    assert_eq!(line(&mut instance, "stop", &[]), "trap unreachable fuel 1");
    assert_eq!(instance.global("count"), Ok(Value::I32(100)));
    let without_fuel = instance.call("add", &[1.into()], Settings::new(0, 1, 0).unwrap()).unwrap();
    assert_eq!(without_fuel.to_string(), "out-of-fuel fuel 0");
    assert_eq!(line(&mut instance, "add", &[1.into()]), "values i32:101 fuel 1");
}

#[test]
fn a_function_is_looked_up_once() {
    let mut instance = instance_of(goes_on());
    let (add, stop) = (instance.function("add").unwrap(), instance.function("stop").unwrap());
    let mut line = |function, args: &[Value], fuel| {
        let settings = Settings::new(fuel, 1, 1).unwrap();
        instance.call_at(function, args, settings).unwrap().to_string()
    };
    assert_eq!(line(add, &[2.into()], 1), "values i32:2 fuel 1");
    assert_eq!(line(add, &[], 1), "bad-arguments");
    assert_eq!(line(add, &[1.into()], 0), "out-of-fuel fuel 0");
    assert_eq!(line(stop, &[], 1), "trap unreachable fuel 1");
    assert_eq!(line(add, &[1.into()], 1), "values i32:101 fuel 1");
    for name in ["count", "ad", ""] {
        assert!(instance.function(name).is_none());
    }
}

#[test]
fn it_resets_itself_after_each_end_but_values() {
    let mut instance = instance_of(goes_on());
    let mut ends = |name: &str, args: &[Value], fuel| {
        let settings = Settings::new(fuel, 1, 1).unwrap();
        let line = instance.call_or_reset(name, args, settings).unwrap().to_string();
        (line, instance.global("count").unwrap())
    };
    assert_eq!(ends("add", &[2.into()], 1), ("values i32:2 fuel 1".into(), Value::I32(2)));
    assert_eq!(ends("add", &[3.into()], 1), ("values i32:5 fuel 1".into(), Value::I32(5)));
    assert_eq!(ends("stop", &[], 1), ("trap unreachable fuel 1".into(), Value::I32(0)));
    assert_eq!(ends("add", &[1.into()], 1), ("values i32:1 fuel 1".into(), Value::I32(1)));
    assert_eq!(ends("add", &[1.into()], 0), ("out-of-fuel fuel 0".into(), Value::I32(0)));
    expect_begun(&instance);
}

#[test]
fn a_function_without_results_gives_no_value() {
    let call = |end| Call { end, fuel: 1 };
    assert_eq!(call(End::Values(vec![])).no_value(), Ok(()));
    let one = call(End::Values(vec![Value::I32(7)]));
    assert_eq!(one.clone().no_value(), Err(CallError(one.clone())));
    assert_eq!(CallError(one).to_string(), "not what is asked for: values i32:7 fuel 1");
    let mut instance = instance_of(goes_on());
    let stopped = instance.call("stop", &[], Settings::default()).unwrap().no_value();
    assert_eq!(stopped.unwrap_err().to_string(), "trap unreachable fuel 1");
}

#[test]
fn calls_that_do_not_run_leave_it() {
    let mut instance = instance_of(goes_on());
    assert_eq!(line(&mut instance, "none", &[]), "no-export");
    assert_eq!(line(&mut instance, "count", &[]), "not-a-function");
    assert_eq!(line(&mut instance, "add", &[Value::I64(1)]), "bad-arguments");
    expect_begun(&instance);
}

#[test]
fn results_of_any_number() {
    for count in [0, 1, 2, 16, 17, 1024, 1025] {
        let mut instance = instance_of(sevens(count));
        for _ in 0..2 {
            let call = instance.call("f", &[], Settings::default()).unwrap();
            assert_eq!((call.end, call.fuel), (End::Values(vec![Value::I32(7); count]), 1));
        }
    }
}

#[test]
fn memory_grows_up_to_the_pages_of_the_instance() {
    let mut instance = instance_of(goes_on());
    assert_eq!(line(&mut instance, "grow", &[1.into()]), "values i32:1 fuel 1");
    assert_eq!((instance.memory_size(), instance.read_vec(131_071, 1)), (131_072, Ok(vec![0])));
    let module = Module::from_vec(goes_on()).unwrap();
    let mut small = module.instance(Settings::new(1, 1, 1).unwrap()).unwrap();
    assert_eq!(line(&mut small, "grow", &[1.into()]), "values i32:-1 fuel 1");
    assert_eq!(small.memory_size(), 65_536);
}

#[test]
fn bytes_go_in_and_out() {
    let mut instance = instance_of(goes_on());
    let mut out = [0; 4];
    assert_eq!(instance.write(16, &[40, 41]), Ok(()));
    assert_eq!((instance.read(15, &mut out), out), (Ok(()), [0, 40, 41, 0]));
    assert_eq!(instance.write(65_534, &[1, 2]), Ok(()));
    assert_eq!(instance.read_vec(65_534, 2), Ok(vec![1, 2]));
    assert_eq!((instance.write(65_536, &[]), instance.read(65_536, &mut [])), (Ok(()), Ok(())));
    assert_eq!(instance.read_vec(65_536, 0), Ok(vec![]));
}

#[test]
fn bytes_outside() {
    let mut instance = instance_of(goes_on());
    for (at, length) in [(65_535, 2), (65_536, 1), (65_537, 0), (u64::MAX, 1)] {
        let mut out = vec![9; length];
        assert_eq!(instance.read(at, &mut out), Err(InstanceError::Outside));
        assert_eq!(out, vec![9; length]);
        assert_eq!(instance.read_vec(at, length as u64), Err(InstanceError::Outside));
        assert_eq!(instance.write(at, &out), Err(InstanceError::Outside));
    }
    assert_eq!(instance.read_vec(0, u64::MAX), Err(InstanceError::Outside));
    assert_eq!(instance.read_vec(u64::MAX, u64::MAX), Err(InstanceError::Outside));
    expect_begun(&instance);
}

#[test]
fn no_memory_has_no_bytes() {
    let mut instance = instance_of(HEADER.to_vec());
    assert_eq!((instance.memory_size(), instance.start_fuel()), (0, 0));
    assert_eq!(instance.read(0, &mut []), Err(InstanceError::Outside));
    assert_eq!(instance.read_vec(0, 0), Err(InstanceError::Outside));
    assert_eq!(instance.write(0, &[]), Err(InstanceError::Outside));
}

#[test]
fn globals() {
    let instance = instance_of(goes_on());
    assert_eq!(instance.global("wide"), Ok(Value::I64(-5)));
    for name in ["add", "", "count "] {
        assert_eq!(instance.global(name), Err(InstanceError::NoGlobal));
    }
}

#[test]
fn a_reset_instance_is_fresh() {
    let mut instance = instance_of(goes_on());
    line(&mut instance, "grow", &[1.into()]);
    line(&mut instance, "stop", &[]);
    instance.write(0, &[1; 100_000]).unwrap();
    assert_eq!(instance.reset(), Ok(()));
    expect_begun(&instance);
    assert_eq!(line(&mut instance, "add", &[2.into()]), "values i32:2 fuel 1");
}

/// Why there is no instance of a module.
fn refused(bytes: &[u8], settings: Settings) -> InstanceError {
    Module::new(bytes).unwrap().instance(settings).unwrap_err()
}

#[test]
fn no_instance() {
    let no_instance = |end, fuel| InstanceError::NoInstance(Call { end, fuel });
    let settings = Settings::default();
    let imports = module(&[(1, &[1, 0x60, 0, 0]), (2, b"\x01\0\0\0\0")]);
    assert_eq!(refused(&imports, settings), no_instance(End::NotStarted(NotStarted::Imports), 0));
    let memory = Settings::new(1, 1, 0).unwrap();
    assert_eq!(
        refused(&goes_on(), memory),
        no_instance(End::NotStarted(NotStarted::MemoryLimit), 0)
    );
    let no_fuel = Settings::new(0, 1, 1).unwrap();
    assert_eq!(refused(&goes_on(), no_fuel), no_instance(End::OutOfFuel, 0));
    // The start function is `unreachable`.
    let traps = module(&[(1, &[1, 0x60, 0, 0]), (3, &[1, 0]), (8, &[0]), (10, &[1, 3, 0, 0, 0x0b])]);
    assert_eq!(refused(&traps, settings), no_instance(End::Trap(Trap::Unreachable), 1));
}

#[test]
fn an_instance_outlives_its_module() {
    let bytes = goes_on();
    let mut borrows = {
        let module = Module::new(&bytes).unwrap();
        module.instance(Settings::default()).unwrap()
    };
    assert_eq!(line(&mut borrows, "add", &[1.into()]), "values i32:1 fuel 1");
    let mut owns = instance_of(goes_on());
    let thread = thread::spawn(move || {
        owns.reset().unwrap();
        line(&mut owns, "add", &[4.into()])
    });
    assert_eq!(thread.join().unwrap(), "values i32:4 fuel 1");
}

#[test]
fn threads_have_an_instance_each() {
    let bytes = goes_on();
    let module = Module::new(&bytes).unwrap();
    thread::scope(|scope| {
        for number in 0..8 {
            let mut instance = module.instance(Settings::default()).unwrap();
            scope.spawn(move || {
                for turn in 1..=300 {
                    let sum: i32 = instance
                        .call("add", &[number.into()], Settings::default())
                        .unwrap()
                        .value()
                        .unwrap();
                    assert_eq!(sum, number * turn);
                }
            });
        }
    });
}

#[test]
fn errors_are_errors() {
    let call = |end| Call { end, fuel: 3 };
    let errors: [(Box<dyn Error>, &str); 7] = [
        (
            InstanceError::NoInstance(call(End::NotStarted(NotStarted::Imports))).into(),
            "no instance: not-started imports",
        ),
        (InstanceError::Outside.into(), "the bytes do not lie in the memory"),
        (InstanceError::NoGlobal.into(), "no global is exported under the name"),
        (InstanceError::from(NoMemory).into(), "no memory"),
        (WidthError.into(), "the number has the other width"),
        (CallError(call(End::OutOfFuel)).into(), "out-of-fuel fuel 3"),
        (CallError(call(End::Values(vec![]))).into(), "not what is asked for: values fuel 3"),
    ];
    for (error, text) in errors {
        assert_eq!(error.to_string(), text);
    }
}

#[test]
fn the_one_number_of_a_call() {
    let call = |values: &[Value]| Call {
        end: End::Values(values.to_vec()),
        fuel: 1,
    };
    assert_eq!(call(&[Value::I32(-1)]).value(), Ok(u32::MAX));
    assert_eq!(call(&[Value::I64(-1)]).value(), Ok(-1_i64));
    let wrong = [call(&[]), call(&[Value::I64(1)]), call(&[Value::I32(1), Value::I32(1)])];
    for call in wrong {
        assert_eq!(call.clone().value::<u32>(), Err(CallError(call)));
    }
    let trap = Call {
        end: End::Trap(Trap::Unreachable),
        fuel: 1,
    };
    assert_eq!(trap.clone().value::<i32>(), Err(CallError(trap)));
}

/// The answer of a plug-in to a request, by the convention of docs/GUESTS.md.
fn answer(plugin: &mut Instance<'_>, request: &[u8]) -> Vec<u8> {
    let limits = Settings::default();
    let length = u32::try_from(request.len()).unwrap();
    let address: u32 = plugin.call("alloc", &[length.into()], limits).unwrap().value().unwrap();
    plugin.write(address.into(), request).unwrap();
    let answer: u64 = plugin
        .call("handle", &[address.into(), length.into()], limits)
        .unwrap()
        .value()
        .unwrap();
    plugin.read_vec(answer >> 32, answer & 0xFFFF_FFFF).unwrap()
}

#[test]
fn plug_ins_of_the_examples() {
    let mut upper = instance_of(example("guests/upper.wasm"));
    assert_eq!(answer(&mut upper, b"Hello, world"), b"HELLO, WORLD");
    assert_eq!(answer(&mut upper, b""), b"");
    let mut pick = instance_of(example("guests/pick.wasm"));
    let object = b"\n{ \"name\": \"gate\", \"length\": 17 }";
    assert_eq!(answer(&mut pick, &[b"name", &object[..]].concat()), b"gate");
    assert_eq!(answer(&mut pick, &[b"length", &object[..]].concat()), b"17");
    // The room of 8,192 bytes is used up, and is there again after a reset.
    let fill = [Value::from(8_192 - 37 - 39)];
    assert!(line(&mut pick, "alloc", &fill).starts_with("values i32:"));
    assert_eq!(line(&mut pick, "alloc", &[1.into()]), "values i32:0 fuel 1");
    pick.reset().unwrap();
    assert_eq!(answer(&mut pick, &[b"name", &object[..]].concat()), b"gate");
}
