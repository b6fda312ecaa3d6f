%N = type { i64, ptr addrspace(1) }
declare ptr addrspace(1) @gc_new.N(i64)
declare void @print_i64(i64)
define i64 @main() gc "statepoint-example" {
entry:
  %one = call ptr addrspace(1) @gc_new.N(i64 1)
  %half = getelementptr i32, ptr addrspace(1) %one, i64 1
  %value = load i64, ptr addrspace(1) %half
  ret i64 %value
}
