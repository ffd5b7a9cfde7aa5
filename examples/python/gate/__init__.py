"""Judges WebAssembly modules and runs their calls, over libgate.

    >>> import gate
    >>> str(gate.check(b'\\0asm\\1\\0\\0'))
    'refused malformed'
    >>> with gate.Module(open('examples/add.wasm', 'rb').read()) as module:
    ...     print(module.exports[0], module.call('add', 40, 2), sep='; ')
    add: function (i32, i32) -> (i32); values i32:42 fuel 1

`Module.call` takes a fresh instance each time. `Module.instance` gives one that goes on from call to call, and whose memory is read and
written. All functions raise `MemoryError` where memory is refused. ctypes lets other threads run during a call.
"""
from gate.ends import CallError, End, EndKind, NotStarted, Trap
from gate.exports import Export, ExportKind, FunctionType, Import, Measures, ValueType, exports_text
from gate.explanation import Explanation, ModuleRefused, explain
from gate.function import BadArguments
from gate.handle import Closed
from gate.instance import Instance, InstanceFunction, NoFunction, NoGlobal, NoInstance, OutsideMemory
from gate.module import Module
from gate.report import Report, Status, run
from gate.settings import Settings
from gate.values import I32, I64, Value, call_line, value_of
from gate.verdict import Refusal, Verdict, build, check

__version__ = '0.2.0'
__all__ = ['BadArguments', 'CallError', 'Closed', 'End', 'EndKind', 'Explanation', 'Export', 'ExportKind', 'FunctionType', 'I32', 'I64',
           'Import', 'Instance', 'InstanceFunction', 'Measures', 'Module', 'ModuleRefused', 'NoFunction', 'NoGlobal', 'NoInstance',
           'NotStarted', 'OutsideMemory', 'Refusal', 'Report', 'Settings', 'Status', 'Trap', 'Value', 'ValueType', 'Verdict',
           '__version__', 'build', 'call_line', 'check', 'explain', 'exports_text', 'run', 'value_of']
