%N = type { i64, ptr addrspace(1) }
declare ptr addrspace(1) @gc_new.N(i64)
declare i64 @read_i64()
declare void @gc.safepoint_poll()
declare token @llvm.experimental.gc.statepoint.p0(i64, i32, ptr, i32, i32, ...)
declare ptr addrspace(1) @llvm.experimental.gc.relocate.p1(token, i32, i32)
declare ptr addrspace(1) @llvm.experimental.gc.result.p1(token)

define void @f() gc "statepoint-example" {
entry:
  %sp.t0 = call token (i64, i32, ptr, i32, i32, ...) @llvm.experimental.gc.statepoint.p0(i64 2882400000, i32 0, ptr elementtype(void ()) @gc.safepoint_poll, i32 0, i32 0, i32 0, i32 0)
  ret void
}

define i64 @main() gc "statepoint-example" {
entry:
  %sp.t0 = call token (i64, i32, ptr, i32, i32, ...) @llvm.experimental.gc.statepoint.p0(i64 2882400000, i32 0, ptr elementtype(void ()) @gc.safepoint_poll, i32 0, i32 0, i32 0, i32 0)
  %sp.t1 = call token (i64, i32, ptr, i32, i32, ...) @llvm.experimental.gc.statepoint.p0(i64 2882400000, i32 0, ptr elementtype(ptr addrspace(1) (i64)) @gc_new.N, i32 1, i32 0, i64 1, i32 0, i32 0)
  %o = call ptr addrspace(1) @llvm.experimental.gc.result.p1(token %sp.t1)
  %q = getelementptr %N, ptr addrspace(1) %o, i64 0, i32 1
  %x = call i64 @read_i64()
  %sp.t2 = call token (i64, i32, ptr, i32, i32, ...) @llvm.experimental.gc.statepoint.p0(i64 2882400000, i32 0, ptr elementtype(void ()) @u, i32 0, i32 0, i32 0, i32 0) [ "deopt"(i64 %x, ptr addrspace(1) %q, i32 -5, i64 5000000000, ptr addrspace(1) null), "gc-live"(ptr addrspace(1) %o, ptr addrspace(1) %q) ]
  %sp.r0 = call ptr addrspace(1) @llvm.experimental.gc.relocate.p1(token %sp.t2, i32 0, i32 0)
  %sp.r1 = call ptr addrspace(1) @llvm.experimental.gc.relocate.p1(token %sp.t2, i32 0, i32 1)
  ret i64 0
}

define void @u() gc "statepoint-example" {
entry:
  %sp.t0 = call token (i64, i32, ptr, i32, i32, ...) @llvm.experimental.gc.statepoint.p0(i64 2882400000, i32 0, ptr elementtype(void ()) @gc.safepoint_poll, i32 0, i32 0, i32 0, i32 0)
  %sp.t1 = call token (i64, i32, ptr, i32, i32, ...) @llvm.experimental.gc.statepoint.p0(i64 2882400000, i32 0, ptr elementtype(void ()) @f, i32 0, i32 0, i32 0, i32 0)
  %z = udiv i64 1, 0
  ret void
}
