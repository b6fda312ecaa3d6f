%Cell = type { i64, ptr addrspace(1) }
declare ptr addrspace(1) @gc_new.Cell(i64)
declare void @print_i64(i64)
declare void @gc.safepoint_poll()
declare void @gc_check(ptr addrspace(1), ptr addrspace(1), i64)
declare token @llvm.experimental.gc.statepoint.p0(i64, i32, ptr, i32, i32, ...)
declare ptr addrspace(1) @llvm.experimental.gc.relocate.p1(token, i32, i32)
declare ptr addrspace(1) @llvm.experimental.gc.result.p1(token)

define void @other() gc "statepoint-example" {
entry:
  %poll = call token (i64, i32, ptr, i32, i32, ...) @llvm.experimental.gc.statepoint.p0(i64 2882400000, i32 0, ptr elementtype(void ()) @gc.safepoint_poll, i32 0, i32 0, i32 0, i32 0)
  %made = call token (i64, i32, ptr, i32, i32, ...) @llvm.experimental.gc.statepoint.p0(i64 2882400000, i32 0, ptr elementtype(ptr addrspace(1) (i64)) @gc_new.Cell, i32 1, i32 0, i64 1, i32 0, i32 0)
  %unused = call ptr addrspace(1) @llvm.experimental.gc.result.p1(token %made)
  ret void
}

define i64 @main() gc "statepoint-example" {
entry:
  %made = call token (i64, i32, ptr, i32, i32, ...) @llvm.experimental.gc.statepoint.p0(i64 2882400000, i32 0, ptr elementtype(ptr addrspace(1) (i64)) @gc_new.Cell, i32 1, i32 0, i64 2, i32 0, i32 0)
  %cell = call ptr addrspace(1) @llvm.experimental.gc.result.p1(token %made)
  %second = getelementptr %Cell, ptr addrspace(1) %cell, i64 1
  call void @gc_check(ptr addrspace(1) %cell, ptr addrspace(1) %second, i64 0)
  store i64 7, ptr addrspace(1) %second
  %called = call token (i64, i32, ptr, i32, i32, ...) @llvm.experimental.gc.statepoint.p0(i64 2882400000, i32 0, ptr elementtype(void ()) @other, i32 0, i32 0, i32 0, i32 0) [ "gc-live"(ptr addrspace(1) %cell) ]
  %cell.moved = call ptr addrspace(1) @llvm.experimental.gc.relocate.p1(token %called, i32 0, i32 0)
  %second.again = getelementptr %Cell, ptr addrspace(1) %cell.moved, i64 1
  call void @gc_check(ptr addrspace(1) %cell.moved, ptr addrspace(1) %second.again, i64 0)
  %number = load i64, ptr addrspace(1) %second.again
  call void @print_i64(i64 %number)
  ret i64 0
}
