;; Folds the squares 1, 4, 9 .. 100, which the start function writes into memory, by an operation that stands in a table.
(module
  (type $operation (func (param i32 i32) (result i32)))
  (memory (export "memory") 1 2)
  (global $many i32 (i32.const 10))
  (table 5 funcref)
  (elem (i32.const 0) $add $mul $div $nothing)
  (start $fill)

  ;; writes the squares, a word each
  (func $fill
    (local $place i32) (local $number i32)
    (loop $next
      (local.set $number (i32.add (local.get $place) (i32.const 1)))
      (i32.store
        (i32.shl (local.get $place) (i32.const 2))
        (i32.mul (local.get $number) (local.get $number)))
      (local.set $place (local.get $number))
      (br_if $next (i32.lt_u (local.get $place) (global.get $many)))))

  ;; the operations of the table: its fourth has another type, and its fifth is never set
  (func $add (type $operation) (i32.add (local.get 0) (local.get 1)))
  (func $mul (type $operation) (i32.mul (local.get 0) (local.get 1)))
  (func $div (type $operation) (i32.div_s (local.get 0) (local.get 1)))
  (func $nothing)

  ;; the first $many words, folded by the operation at this place of the table
  (func (export "fold") (param $operation i32) (param $many i32) (result i32)
    (local $result i32) (local $place i32)
    (local.set $result (i32.load (i32.const 0)))
    (local.set $place (i32.const 1))
    (block $done
      (loop $next
        (br_if $done (i32.ge_u (local.get $place) (local.get $many)))
        (local.set $result
          (call_indirect (type $operation)
            (local.get $result)
            (i32.load (i32.shl (local.get $place) (i32.const 2)))
            (local.get $operation)))
        (local.set $place (i32.add (local.get $place) (i32.const 1)))
        (br $next)))
    (local.get $result))

  ;; the word at this place
  (func (export "word") (param $place i32) (result i32)
    (i32.load (i32.shl (local.get $place) (i32.const 2))))

  ;; overwrites the word at this place
  (func (export "set") (param $place i32) (param $word i32)
    (i32.store (i32.shl (local.get $place) (i32.const 2)) (local.get $word)))

  ;; grows the memory by $pages: how many it had before, or -1
  (func (export "grow") (param $pages i32) (result i32)
    (memory.grow (local.get $pages)))

  ;; the square of a number of 64 bits
  (func (export "square") (param $number i64) (result i64)
    (i64.mul (local.get $number) (local.get $number)))

  (func (export "stop") (unreachable))

  (func (export "forever") (loop $next (br $next)))

  ;; enters itself this many times
  (func $deep (export "deep") (param $times i32)
    (if (local.get $times)
      (then (call $deep (i32.sub (local.get $times) (i32.const 1)))))))
