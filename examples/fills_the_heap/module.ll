%N = type { i64, ptr addrspace(1) }
declare ptr addrspace(1) @gc_new.N(i64)
declare void @print_i64(i64)
define i64 @main() gc "statepoint-example" {
entry:
  %half = call ptr addrspace(1) @gc_new.N(i64 2097152)
  %other = call ptr addrspace(1) @gc_new.N(i64 2097152)
  call void @print_i64(i64 2)
  %more = call ptr addrspace(1) @gc_new.N(i64 0)
  ret i64 0
}
