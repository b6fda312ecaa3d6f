%N = type { i64, ptr addrspace(1) }
declare ptr addrspace(1) @gc_new.N(i64)
declare void @print_i64(i64)

define void @f() gc "statepoint-example" {
  ret void
}

define i64 @main() gc "statepoint-example" {
entry:
  %o = call ptr addrspace(1) @gc_new.N(i64 1)
  store i64 7, ptr addrspace(1) %o
  call void @f()
  %v = load i64, ptr addrspace(1) %o
  call void @print_i64(i64 %v)
  ret i64 0
}
