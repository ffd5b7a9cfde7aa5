/** What gate for Node exports. README.md says what is thrown. */

/** An instance of a module, which goes on from call to call. It belongs to the thread that opened it. */
export interface Instance {
  readonly __instance: unique symbol;
}

/** Those that are not given are the defaults of `gate run`; in a call, those of `open`. Pages are those of `open` always. */
export interface Limits {
  /** How many functions may be entered and loops begun. */
  fuel?: number; // 0 to 1,000,000,000; default 1,000,000
  /** How many functions may be entered and not yet left. */
  frames?: number; // 1 to 4,096; default 1,024
  /** How many pages of 65,536 bytes the memory may have. */
  pages?: number; // 0 to 1,024; default 256
}

/** An i32 is a number, an i64 a bigint. Of an argument the lowest 32 or 64 bits count; a result has a sign. */
export type Value = number | bigint;
export type ValueType = 'i32' | 'i64' | 'f32' | 'f64';

export interface Export {
  name: string;
  kind: 'function' | 'table' | 'memory' | 'global';
  /** Among those of its kind, imported ones counted first. */
  index: number;
  /** Of a function. */
  params?: ValueType[];
  results?: ValueType[];
}

/** The `code` of what is thrown where a call does not end in values, a module is refused, or there is no instance. */
export type Code = 'TRAP' | 'OUT_OF_FUEL' | 'OUT_OF_FRAMES' | 'NO_EXPORT' | 'NOT_A_FUNCTION' | 'NOT_STARTED' | 'NO_MEMORY' | 'REFUSED' |
  'NO_INSTANCE';

/** Which build the library is. */
export function build(): string;
/** The line of the verdict. */
export function check(bytes: Uint8Array): string;
/** What `gate explain` prints. */
export function explain(bytes: Uint8Array): string;
/** What `gate exports` prints: imports, exports and custom sections, and whether an instance starts, and if not, why and where. */
export function exportsText(bytes: Uint8Array, limits?: Limits): string;
/** Numbers by which a host may refuse an accepted module: tokens of the longest body, locals of a function, values of a list of types. */
export function measures(bytes: Uint8Array): { tokens: number; locals: number; values: number };
/** Judges a module, makes an instance, and runs its start function. */
export function open(bytes: Uint8Array, limits?: Limits): Instance;
/** What its module exports, in the order of the module. */
export function exports(instance: Instance): Export[];
/** Calls an export; its results. */
export function call(instance: Instance, name: string, args: Value[], limits?: Limits): Value[];
/** As `call`, and after each end but values a reset, which a plug-in of a compiler wants: a trap leaves its stack pointer where it was. */
export function callOrReset(instance: Instance, name: string, args: Value[], limits?: Limits): Value[];
/** What the last call cost, however it ended; or the start function, after `open` and `reset`. */
export function fuel(instance: Instance): number;
/** How many bytes its memory has; 0 where it has none. */
export function memorySize(instance: Instance): number;
/** So many bytes of its memory, from place `at` on. */
export function read(instance: Instance, at: number, length: number): Buffer;
/** Writes bytes to its memory, from place `at` on. */
export function write(instance: Instance, at: number, bytes: Uint8Array): void;
/** The value of an exported global; undefined where there is none. */
export function global(instance: Instance, name: string): Value | undefined;
/** Makes it anew, as it was made. */
export function reset(instance: Instance): void;
/** Frees it. A second time it does nothing. */
export function close(instance: Instance): void;
