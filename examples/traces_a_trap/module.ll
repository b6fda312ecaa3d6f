%Cell = type { i64 }
declare ptr addrspace(1) @gc_new.Cell(i64)

; the second object would have -1 elements: the moves of its event happen first
define i64 @main() gc "statepoint-example" {
entry:
  %one = call ptr addrspace(1) @gc_new.Cell(i64 1)
  %two = call ptr addrspace(1) @gc_new.Cell(i64 -1)
  %value = load i64, ptr addrspace(1) %one
  ret i64 %value
}
