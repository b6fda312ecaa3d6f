%N = type { i64, ptr addrspace(1) }
declare ptr addrspace(1) @gc_new.N(i64)
declare void @print_i64(i64)
define i64 @main() gc "statepoint-example" {
entry:
  call void @print_i64(i64 1)
  %field = getelementptr %N, ptr addrspace(1) null, i64 0, i32 1
  %value = load ptr addrspace(1), ptr addrspace(1) %field
  ret i64 0
}
