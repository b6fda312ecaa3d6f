%N = type { i64, ptr addrspace(1) }
declare ptr addrspace(1) @gc_new.N(i64)
declare void @print_i64(i64)
define i64 @main() gc "statepoint-example" {
entry:
  %none = call ptr addrspace(1) @gc_new.N(i64 0)
  %less = call ptr addrspace(1) @gc_new.N(i64 -1)
  ret i64 0
}
