; ModuleID = 'before.ll'
source_filename = "before.ll"

%Cell = type { i64, ptr addrspace(1) }

declare ptr addrspace(1) @gc_new.Cell(i64)

declare void @print_i64(i64) #0

declare void @gc.safepoint_poll()

declare void @gc_check(ptr addrspace(1), ptr addrspace(1), i64) #0

define void @other() gc "statepoint-example" {
entry:
  %statepoint_token = call token (i64, i32, ptr, i32, i32, ...) @llvm.experimental.gc.statepoint.p0(i64 2882400000, i32 0, ptr elementtype(void ()) @gc.safepoint_poll, i32 0, i32 0, i32 0, i32 0)
  ret void
}

define i64 @main() gc "statepoint-example" {
entry:
  %statepoint_token = call token (i64, i32, ptr, i32, i32, ...) @llvm.experimental.gc.statepoint.p0(i64 2882400000, i32 0, ptr elementtype(ptr addrspace(1) (i64)) @gc_new.Cell, i32 1, i32 0, i64 2, i32 0, i32 0)
  %cell1 = call ptr addrspace(1) @llvm.experimental.gc.result.p1(token %statepoint_token)
  %second = getelementptr %Cell, ptr addrspace(1) %cell1, i64 1
  call void @gc_check(ptr addrspace(1) %cell1, ptr addrspace(1) %second, i64 0)
  store i64 7, ptr addrspace(1) %second, align 4
  %statepoint_token2 = call token (i64, i32, ptr, i32, i32, ...) @llvm.experimental.gc.statepoint.p0(i64 2882400000, i32 0, ptr elementtype(void ()) @other, i32 0, i32 0, i32 0, i32 0) [ "gc-live"(ptr addrspace(1) %cell1) ]
  %cell.relocated = call coldcc ptr addrspace(1) @llvm.experimental.gc.relocate.p1(token %statepoint_token2, i32 0, i32 0) ; (%cell1, %cell1)
  %second.remat = getelementptr %Cell, ptr addrspace(1) %cell.relocated, i64 1
  call void @gc_check(ptr addrspace(1) %cell.relocated, ptr addrspace(1) %second.remat, i64 0)
  %number = load i64, ptr addrspace(1) %second.remat, align 4
  call void @print_i64(i64 %number)
  ret i64 0
}

declare token @llvm.experimental.gc.statepoint.p0(i64 immarg, i32 immarg, ptr, i32 immarg, i32 immarg, ...)

; Function Attrs: nocallback nofree nosync nounwind willreturn memory(none)
declare ptr addrspace(1) @llvm.experimental.gc.result.p1(token) #1

; Function Attrs: nocallback nofree nosync nounwind willreturn memory(none)
declare ptr addrspace(1) @llvm.experimental.gc.relocate.p1(token, i32 immarg, i32 immarg) #1

attributes #0 = { "gc-leaf-function" }
attributes #1 = { nocallback nofree nosync nounwind willreturn memory(none) }
