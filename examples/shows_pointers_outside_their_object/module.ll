; What a trap shows of a pointer without an object is its offset, signed; of one before its object the offset from 0 to 2^64 - 1.
%N = type { i64 }

declare ptr addrspace(1) @gc_new.N(i64)

define void @u() gc "statepoint-example" {
entry:
  %z = udiv i64 1, 0
  ret void
}

define i64 @main() gc "statepoint-example" {
entry:
  %o = call ptr addrspace(1) @gc_new.N(i64 1)
  %q = getelementptr i8, ptr addrspace(1) null, i64 5
  %r = getelementptr i8, ptr addrspace(1) null, i64 -5
  %b = getelementptr i8, ptr addrspace(1) %o, i64 -8
  %e = getelementptr i8, ptr addrspace(1) %o, i64 8
  call void @u() [ "deopt"(ptr addrspace(1) %q, ptr addrspace(1) %r, ptr addrspace(1) %b, ptr addrspace(1) %e, i1 true, i8 255) ]
  ret i64 0
}
