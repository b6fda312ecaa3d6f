; A call that carries values for whoever looks at its frame while it waits: an integer, a derived pointer, literals and null.
%N = type { i64, ptr addrspace(1) }

declare ptr addrspace(1) @gc_new.N(i64)
declare i64 @read_i64()

define void @f() gc "statepoint-example" {
entry:
  ret void
}

define i64 @main() gc "statepoint-example" {
entry:
  %o = call ptr addrspace(1) @gc_new.N(i64 1)
  %q = getelementptr %N, ptr addrspace(1) %o, i64 0, i32 1
  %x = call i64 @read_i64()
  call void @u() [ "deopt"(i64 %x, ptr addrspace(1) %q, i32 -5, i64 5000000000, ptr addrspace(1) null) ]
  ret i64 0
}

define void @u() gc "statepoint-example" {
entry:
  call void @f()
  %z = udiv i64 1, 0
  ret void
}
