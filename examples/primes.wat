;; Counts and lists the primes below a bound with a sieve in memory: a byte a number, 1 where the number is struck out.
(module
  (type $unary (func (param i32) (result i32)))
  (memory (export "memory") 1 16)
  (global $runs (mut i32) (i32.const 0))
  (table 3 funcref)
  (elem (i32.const 0) $count $last $is_prime)
  (data (i32.const 0) "\01\01")

  ;; strikes out the multiples of a number below the bound
  (func $strike (param $number i32) (param $bound i32)
    (local $multiple i32)
    (local.set $multiple (i32.mul (local.get $number) (local.get $number)))
    (block $done
      (loop $next
        (br_if $done (i32.ge_u (local.get $multiple) (local.get $bound)))
        (i32.store8 (local.get $multiple) (i32.const 1))
        (local.set $multiple (i32.add (local.get $multiple) (local.get $number)))
        (br $next))))

  ;; fills the sieve up to the bound, and grows the memory where it is too small
  (func $sieve (param $bound i32)
    (local $number i32)
    (if (i32.gt_u (local.get $bound) (i32.shl (memory.size) (i32.const 16)))
      (then
        (if (i32.eq (memory.grow (i32.const 15)) (i32.const -1)) (then (unreachable)))))
    (global.set $runs (i32.add (global.get $runs) (i32.const 1)))
    (local.set $number (i32.const 2))
    (block $done
      (loop $next
        (br_if $done (i32.ge_u (i32.mul (local.get $number) (local.get $number)) (local.get $bound)))
        (if (i32.eqz (i32.load8_u (local.get $number)))
          (then (call $strike (local.get $number) (local.get $bound))))
        (local.set $number (i32.add (local.get $number) (i32.const 1)))
        (br $next))))

  ;; how many primes are below the bound
  (func $count (export "count") (type $unary) (param $bound i32) (result i32)
    (local $number i32) (local $found i32)
    (call $sieve (local.get $bound))
    (block $done
      (loop $next
        (br_if $done (i32.ge_u (local.get $number) (local.get $bound)))
        (local.set $found (i32.add (local.get $found) (i32.eqz (i32.load8_u (local.get $number)))))
        (local.set $number (i32.add (local.get $number) (i32.const 1)))
        (br $next)))
    (local.get $found))

  ;; the greatest prime below the bound, or 0
  (func $last (export "last") (type $unary) (param $bound i32) (result i32)
    (call $sieve (local.get $bound))
    (block $none
      (loop $next
        (br_if $none (i32.le_u (local.get $bound) (i32.const 2)))
        (local.set $bound (i32.sub (local.get $bound) (i32.const 1)))
        (br_if $next (i32.load8_u (local.get $bound)))
        (return (local.get $bound))))
    (i32.const 0))

  (func $is_prime (export "is_prime") (type $unary) (param $number i32) (result i32)
    (call $sieve (i32.add (local.get $number) (i32.const 1)))
    (i32.eqz (i32.load8_u (local.get $number))))

  ;; one of the three, by its place in the table
  (func (export "ask") (param $which i32) (param $number i32) (result i32)
    (call_indirect (type $unary) (local.get $number) (local.get $which)))

  ;; the sum of the primes below the bound
  (func (export "sum") (param $bound i32) (result i64)
    (local $number i32) (local $sum i64)
    (call $sieve (local.get $bound))
    (block $done
      (loop $next
        (br_if $done (i32.ge_u (local.get $number) (local.get $bound)))
        (if (i32.eqz (i32.load8_u (local.get $number)))
          (then (local.set $sum (i64.add (local.get $sum) (i64.extend_i32_u (local.get $number))))))
        (local.set $number (i32.add (local.get $number) (i32.const 1)))
        (br $next)))
    (local.get $sum)))
