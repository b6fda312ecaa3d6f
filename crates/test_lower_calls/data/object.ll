%N = type { i64, ptr addrspace(1) }
declare ptr addrspace(1) @gc_new.N(i64)

define void @f(i1 %x) gc "statepoint-example" {
  ret void
}

define i64 @main() gc "statepoint-example" {
entry:
  %o = call ptr addrspace(1) @gc_new.N(i64 1)
  call void @f(i1 true)
  %v = load i64, ptr addrspace(1) %o
  ret i64 %v
}
