;; Kernels for an interpreter, text of ours: each export takes how much work it is to do, and gives a number that says
;; what it did.
(module
  (type $unary (func (param i32) (result i32)))
  (memory 16)
  (global $counter (mut i32) (i32.const 0))
  (table 4 funcref)
  (elem (i32.const 0) $add_one $twice $mix $minus)

  ;; recursion
  (func $fib (export "fib") (type $unary) (param $n i32) (result i32)
    (if (i32.lt_u (local.get $n) (i32.const 2)) (then (return (local.get $n))))
    (i32.add (call $fib (i32.sub (local.get $n) (i32.const 1))) (call $fib (i32.sub (local.get $n) (i32.const 2)))))

  ;; a loop over locals
  (func (export "sums") (param $n i32) (result i32)
    (local $a i32) (local $b i32) (local $next i32)
    (local.set $b (i32.const 1))
    (loop $turn
      (local.set $next (i32.add (local.get $a) (local.get $b)))
      (local.set $a (local.get $b))
      (local.set $b (local.get $next))
      (br_if $turn (local.tee $n (i32.sub (local.get $n) (i32.const 1)))))
    (local.get $a))

  ;; bytes of memory: primes below 100,000, as many times as the argument says
  (func (export "sieve") (param $times i32) (result i32)
    (local $i i32) (local $j i32) (local $found i32)
    (loop $again
      (local.set $i (i32.const 0))
      (loop $clear
        (i32.store8 (local.get $i) (i32.const 0))
        (br_if $clear (i32.lt_u (local.tee $i (i32.add (local.get $i) (i32.const 1))) (i32.const 100000))))
      (local.set $found (i32.const 0))
      (local.set $i (i32.const 2))
      (loop $next
        (if (i32.eqz (i32.load8_u (local.get $i)))
          (then
            (local.set $found (i32.add (local.get $found) (i32.const 1)))
            (local.set $j (i32.shl (local.get $i) (i32.const 1)))
            (block $done
              (loop $strike
                (br_if $done (i32.ge_u (local.get $j) (i32.const 100000)))
                (i32.store8 (local.get $j) (i32.const 1))
                (local.set $j (i32.add (local.get $j) (local.get $i)))
                (br $strike)))))
        (br_if $next (i32.lt_u (local.tee $i (i32.add (local.get $i) (i32.const 1))) (i32.const 100000))))
      (br_if $again (local.tee $times (i32.sub (local.get $times) (i32.const 1)))))
    (local.get $found))

  ;; words of memory: a row of sums over 16,384 words, as many times as the argument says
  (func (export "words") (param $times i32) (result i32)
    (local $at i32)
    (loop $again
      (local.set $at (i32.const 4))
      (loop $next
        (i32.store (local.get $at)
          (i32.add (i32.load (local.get $at)) (i32.add (i32.load (i32.sub (local.get $at) (i32.const 4))) (i32.const 1))))
        (br_if $next (i32.lt_u (local.tee $at (i32.add (local.get $at) (i32.const 4))) (i32.const 65536))))
      (br_if $again (local.tee $times (i32.sub (local.get $times) (i32.const 1)))))
    (i32.load (i32.const 65532)))

  ;; mixing of 64 bits
  (func (export "mixing") (param $n i32) (result i32)
    (local $x i64)
    (local.set $x (i64.const 88172645463325252))
    (loop $turn
      (local.set $x (i64.xor (local.get $x) (i64.shl (local.get $x) (i64.const 13))))
      (local.set $x (i64.xor (local.get $x) (i64.shr_u (local.get $x) (i64.const 7))))
      (local.set $x (i64.xor (local.get $x) (i64.rotl (local.get $x) (i64.const 17))))
      (local.set $x (i64.mul (local.get $x) (i64.const 2685821657736338717)))
      (br_if $turn (local.tee $n (i32.sub (local.get $n) (i32.const 1)))))
    (i32.wrap_i64 (local.get $x)))

  ;; branches that no rule foretells
  (func (export "collatz") (param $n i32) (result i32)
    (local $x i64) (local $steps i32)
    (loop $each
      (local.set $x (i64.extend_i32_u (local.get $n)))
      (block $done
        (loop $turn
          (br_if $done (i64.le_u (local.get $x) (i64.const 1)))
          (local.set $steps (i32.add (local.get $steps) (i32.const 1)))
          (if (i64.eqz (i64.and (local.get $x) (i64.const 1)))
            (then (local.set $x (i64.shr_u (local.get $x) (i64.const 1))))
            (else (local.set $x (i64.add (i64.mul (local.get $x) (i64.const 3)) (i64.const 1)))))
          (br $turn)))
      (br_if $each (local.tee $n (i32.sub (local.get $n) (i32.const 1)))))
    (local.get $steps))

  ;; a machine of eight instructions by a branch table
  (func (export "cases") (param $n i32) (result i32)
    (local $x i32)
    (loop $turn
      (block $next
        (block $7 (block $6 (block $5 (block $4 (block $3 (block $2 (block $1 (block $0
          (br_table $0 $1 $2 $3 $4 $5 $6 $7 (i32.and (local.get $x) (i32.const 7))))
          (local.set $x (i32.add (local.get $x) (i32.const 3))) (br $next))
          (local.set $x (i32.mul (local.get $x) (i32.const 5))) (br $next))
          (local.set $x (i32.sub (local.get $x) (i32.const 7))) (br $next))
          (local.set $x (i32.xor (local.get $x) (i32.const 1234))) (br $next))
          (local.set $x (i32.rotl (local.get $x) (i32.const 3))) (br $next))
          (local.set $x (i32.add (local.get $x) (i32.const 11))) (br $next))
          (local.set $x (i32.shr_u (local.get $x) (i32.const 1))) (br $next))
        (local.set $x (i32.or (local.get $x) (i32.const 256))))
      (local.set $x (i32.add (local.get $x) (local.get $n)))
      (br_if $turn (local.tee $n (i32.sub (local.get $n) (i32.const 1)))))
    (local.get $x))

  (func $add_one (param $x i32) (result i32) (i32.add (local.get $x) (i32.const 1)))
  (func $twice (param $x i32) (result i32) (i32.shl (local.get $x) (i32.const 1)))
  (func $mix (param $x i32) (result i32) (i32.xor (local.get $x) (i32.const 91)))
  (func $minus (param $x i32) (result i32) (i32.sub (i32.const 0) (local.get $x)))

  ;; calls through a table
  (func (export "table") (param $n i32) (result i32)
    (local $x i32)
    (loop $turn
      (local.set $x (call_indirect (type $unary) (local.get $x) (i32.and (local.get $n) (i32.const 3))))
      (br_if $turn (local.tee $n (i32.sub (local.get $n) (i32.const 1)))))
    (local.get $x))

  ;; a global
  (func (export "globals") (param $n i32) (result i32)
    (loop $turn
      (global.set $counter (i32.add (global.get $counter) (local.get $n)))
      (br_if $turn (local.tee $n (i32.sub (local.get $n) (i32.const 1)))))
    (global.get $counter))

  ;; sorting by insertion of 1,000 words, as many times as the argument says
  (func (export "sorting") (param $times i32) (result i32)
    (local $i i32) (local $j i32) (local $word i32) (local $seed i32)
    (loop $again
      (local.set $i (i32.const 0))
      (loop $fill
        (local.set $seed (i32.add (i32.mul (local.get $seed) (i32.const 1103515245)) (i32.const 12345)))
        (i32.store (local.get $i) (i32.shr_u (local.get $seed) (i32.const 8)))
        (br_if $fill (i32.lt_u (local.tee $i (i32.add (local.get $i) (i32.const 4))) (i32.const 4000))))
      (local.set $i (i32.const 4))
      (loop $next
        (local.set $word (i32.load (local.get $i)))
        (local.set $j (local.get $i))
        (block $placed
          (loop $shift
            (br_if $placed (i32.eqz (local.get $j)))
            (br_if $placed (i32.le_u (i32.load (i32.sub (local.get $j) (i32.const 4))) (local.get $word)))
            (i32.store (local.get $j) (i32.load (i32.sub (local.get $j) (i32.const 4))))
            (local.set $j (i32.sub (local.get $j) (i32.const 4)))
            (br $shift)))
        (i32.store (local.get $j) (local.get $word))
        (br_if $next (i32.lt_u (local.tee $i (i32.add (local.get $i) (i32.const 4))) (i32.const 4000))))
      (br_if $again (local.tee $times (i32.sub (local.get $times) (i32.const 1)))))
    (i32.load (i32.const 2000)))

  ;; a hash of 65,536 bytes, as many times as the argument says
  (func (export "hashing") (param $times i32) (result i32)
    (local $at i32) (local $hash i32)
    (local.set $hash (i32.const -2128831035))
    (loop $again
      (local.set $at (i32.const 0))
      (loop $next
        (local.set $hash (i32.mul (i32.xor (local.get $hash) (i32.load8_u (local.get $at))) (i32.const 16777619)))
        (br_if $next (i32.lt_u (local.tee $at (i32.add (local.get $at) (i32.const 1))) (i32.const 65536))))
      (br_if $again (local.tee $times (i32.sub (local.get $times) (i32.const 1)))))
    (local.get $hash)))
