%Node = type { i64, ptr addrspace(1) }
declare ptr addrspace(1) @gc_new.Node(i64)
declare void @print_i64(i64)
declare i64 @read_i64()
declare void @gc.safepoint_poll()
declare void @gc_check(ptr addrspace(1), ptr addrspace(1), i64)
declare token @llvm.experimental.gc.statepoint.p0(i64, i32, ptr, i32, i32, ...)
declare ptr addrspace(1) @llvm.experimental.gc.relocate.p1(token, i32, i32)
declare ptr addrspace(1) @llvm.experimental.gc.result.p1(token)

define ptr addrspace(1) @prepend(i64 %value, ptr addrspace(1) %list) gc "statepoint-example" {
entry:
  %sp.t0 = call token (i64, i32, ptr, i32, i32, ...) @llvm.experimental.gc.statepoint.p0(i64 2882400000, i32 0, ptr elementtype(void ()) @gc.safepoint_poll, i32 0, i32 0, i32 0, i32 0) [ "gc-live"(ptr addrspace(1) %list) ]
  %sp.r0 = call ptr addrspace(1) @llvm.experimental.gc.relocate.p1(token %sp.t0, i32 0, i32 0)
  %sp.t1 = call token (i64, i32, ptr, i32, i32, ...) @llvm.experimental.gc.statepoint.p0(i64 2882400000, i32 0, ptr elementtype(ptr addrspace(1) (i64)) @gc_new.Node, i32 1, i32 0, i64 1, i32 0, i32 0) [ "gc-live"(ptr addrspace(1) %sp.r0) ]
  %node = call ptr addrspace(1) @llvm.experimental.gc.result.p1(token %sp.t1)
  %sp.r1 = call ptr addrspace(1) @llvm.experimental.gc.relocate.p1(token %sp.t1, i32 0, i32 0)
  call void @gc_check(ptr addrspace(1) %node, ptr addrspace(1) %node, i64 0)
  store i64 %value, ptr addrspace(1) %node
  %link = getelementptr %Node, ptr addrspace(1) %node, i64 0, i32 1
  call void @gc_check(ptr addrspace(1) %node, ptr addrspace(1) %link, i64 1)
  store ptr addrspace(1) %sp.r1, ptr addrspace(1) %link
  ret ptr addrspace(1) %node
}

define i64 @main() gc "statepoint-example" {
entry:
  %sp.t0 = call token (i64, i32, ptr, i32, i32, ...) @llvm.experimental.gc.statepoint.p0(i64 2882400000, i32 0, ptr elementtype(void ()) @gc.safepoint_poll, i32 0, i32 0, i32 0, i32 0)
  %count = call i64 @read_i64()
  br label %build
build:
  %list = phi ptr addrspace(1) [ null, %entry ], [ %sp.r0, %more ]
  %left = phi i64 [ %count, %entry ], [ %less, %more ]
  %empty = icmp eq i64 %left, 0
  br i1 %empty, label %walk, label %more
more:
  %value = call i64 @read_i64()
  %sp.t1 = call token (i64, i32, ptr, i32, i32, ...) @llvm.experimental.gc.statepoint.p0(i64 2882400000, i32 0, ptr elementtype(ptr addrspace(1) (i64, ptr addrspace(1))) @prepend, i32 2, i32 0, i64 %value, ptr addrspace(1) %list, i32 0, i32 0)
  %longer = call ptr addrspace(1) @llvm.experimental.gc.result.p1(token %sp.t1)
  %less = sub i64 %left, 1
  %sp.t2 = call token (i64, i32, ptr, i32, i32, ...) @llvm.experimental.gc.statepoint.p0(i64 2882400000, i32 0, ptr elementtype(void ()) @gc.safepoint_poll, i32 0, i32 0, i32 0, i32 0) [ "gc-live"(ptr addrspace(1) %longer) ]
  %sp.r0 = call ptr addrspace(1) @llvm.experimental.gc.relocate.p1(token %sp.t2, i32 0, i32 0)
  br label %build
walk:
  %node = phi ptr addrspace(1) [ %list, %build ], [ %sp.r1, %show ]
  %sum = phi i64 [ 0, %build ], [ %total, %show ]
  %ended = icmp eq ptr addrspace(1) %node, null
  br i1 %ended, label %done, label %show
show:
  call void @gc_check(ptr addrspace(1) %node, ptr addrspace(1) %node, i64 0)
  %here = load i64, ptr addrspace(1) %node
  call void @print_i64(i64 %here)
  %total = add i64 %sum, %here
  %link = getelementptr %Node, ptr addrspace(1) %node, i64 0, i32 1
  call void @gc_check(ptr addrspace(1) %node, ptr addrspace(1) %link, i64 1)
  %next = load ptr addrspace(1), ptr addrspace(1) %link
  %sp.t3 = call token (i64, i32, ptr, i32, i32, ...) @llvm.experimental.gc.statepoint.p0(i64 2882400000, i32 0, ptr elementtype(void ()) @gc.safepoint_poll, i32 0, i32 0, i32 0, i32 0) [ "gc-live"(ptr addrspace(1) %next) ]
  %sp.r1 = call ptr addrspace(1) @llvm.experimental.gc.relocate.p1(token %sp.t3, i32 0, i32 0)
  br label %walk
done:
  ret i64 %sum
}
