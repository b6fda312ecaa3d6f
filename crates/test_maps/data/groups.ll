%N = type { i64, ptr addrspace(1) }
declare ptr addrspace(1) @gc_new.N(i64)
declare void @print_i64(i64)
declare void @gc.safepoint_poll()
declare token @llvm.experimental.gc.statepoint.p0(i64, i32, ptr, i32, i32, ...)
declare ptr addrspace(1) @llvm.experimental.gc.relocate.p1(token, i32, i32)
declare ptr addrspace(1) @llvm.experimental.gc.result.p1(token)
declare i64 @llvm.experimental.gc.result.i64(token)

; a leaf of five instructions, a switch among them, so the next function isn't behind it at once
define i64 @leaf(i64 %x) gc "statepoint-example" {
0:
  %y = add i64 %x, 1
  switch i64 %y, label %a [
    i64 1, label %b
    i64 2, label %b
    i64 3, label %a
  ]
a:
  call void @print_i64(i64 %y)
  br label %b
b:
  ret i64 %y
}

; no instruction but a return: eight bytes from the start of the next function
define void @nothing() gc "statepoint-example" {
0:
  ret void
}

; relocates in another order than the entries, twice the same pair, an entry without a relocate, and other ids
define ptr addrspace(1) @many(ptr addrspace(1) %o, ptr addrspace(1) %p, ptr addrspace(1) %q) gc "statepoint-example" {
0:
  %d = getelementptr i8, ptr addrspace(1) %o, i64 8
  %t0 = call token (i64, i32, ptr, i32, i32, ...) @llvm.experimental.gc.statepoint.p0(i64 7, i32 0, ptr elementtype(void ()) @nothing, i32 0, i32 0, i32 0, i32 0) [ "gc-live"(ptr addrspace(1) %q, ptr addrspace(1) %d, ptr addrspace(1) %o, ptr addrspace(1) %p) ]
  %r0 = call ptr addrspace(1) @llvm.experimental.gc.relocate.p1(token %t0, i32 2, i32 1)
  %r1 = call ptr addrspace(1) @llvm.experimental.gc.relocate.p1(token %t0, i32 2, i32 2)
  %r2 = call ptr addrspace(1) @llvm.experimental.gc.relocate.p1(token %t0, i32 2, i32 1)
  %r3 = call ptr addrspace(1) @llvm.experimental.gc.relocate.p1(token %t0, i32 0, i32 0)
  %t1 = call token (i64, i32, ptr, i32, i32, ...) @llvm.experimental.gc.statepoint.p0(i64 0, i32 0, ptr elementtype(i64 (i64)) @leaf, i32 1, i32 0, i64 3, i32 0, i32 0) [ "gc-live"(ptr addrspace(1) %r1) ]
  %n = call i64 @llvm.experimental.gc.result.i64(token %t1)
  %r4 = call ptr addrspace(1) @llvm.experimental.gc.relocate.p1(token %t1, i32 0, i32 0)
  %c = icmp eq i64 %n, 4
  br i1 %c, label %yes, label %no
yes:
  %t2 = call token (i64, i32, ptr, i32, i32, ...) @llvm.experimental.gc.statepoint.p0(i64 18446744073709551615, i32 0, ptr elementtype(ptr addrspace(1) (i64)) @gc_new.N, i32 1, i32 0, i64 2, i32 0, i32 0)
  %new = call ptr addrspace(1) @llvm.experimental.gc.result.p1(token %t2)
  ret ptr addrspace(1) %new
no:
  %t3 = call token (i64, i32, ptr, i32, i32, ...) @llvm.experimental.gc.statepoint.p0(i64 1, i32 0, ptr elementtype(void ()) @gc.safepoint_poll, i32 0, i32 0, i32 0, i32 0) [ "gc-live"(ptr addrspace(1) null, ptr addrspace(1) %r4) ]
  %r5 = call ptr addrspace(1) @llvm.experimental.gc.relocate.p1(token %t3, i32 0, i32 1)
  %r6 = call ptr addrspace(1) @llvm.experimental.gc.relocate.p1(token %t3, i32 1, i32 1)
  ret ptr addrspace(1) %r6
; a block that no edge leads to has a record all the same
unreached:
  %t4 = call token (i64, i32, ptr, i32, i32, ...) @llvm.experimental.gc.statepoint.p0(i64 2, i32 0, ptr elementtype(void ()) @gc.safepoint_poll, i32 0, i32 0, i32 0, i32 0)
  ret ptr addrspace(1) null
}

define i64 @main() gc "statepoint-example" {
0:
  %t0 = call token (i64, i32, ptr, i32, i32, ...) @llvm.experimental.gc.statepoint.p0(i64 2882400000, i32 0, ptr elementtype(void ()) @nothing, i32 0, i32 0, i32 0, i32 0)
  ret i64 0
}
