%N = type { i64, ptr addrspace(1) }
declare ptr addrspace(1) @gc_new.N(i64)
declare void @print_i64(i64)
define i64 @main() gc "statepoint-example" {
entry:
  %two = call ptr addrspace(1) @gc_new.N(i64 2)
  %last = getelementptr %N, ptr addrspace(1) %two, i64 1, i32 0
  store i64 1, ptr addrspace(1) %last
  %behind = getelementptr %N, ptr addrspace(1) %two, i64 2
  store i64 2, ptr addrspace(1) %behind
  ret i64 0
}
