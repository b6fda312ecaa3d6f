; Polls and checks stand here before LLVM's pass places statepoints. The checks are leaves, so it leaves them where they are.
%Cell = type { i64, ptr addrspace(1) }

declare ptr addrspace(1) @gc_new.Cell(i64)
declare void @print_i64(i64) "gc-leaf-function"
declare void @gc.safepoint_poll()
declare void @gc_check(ptr addrspace(1), ptr addrspace(1), i64) "gc-leaf-function"

define void @other() gc "statepoint-example" {
entry:
  call void @gc.safepoint_poll()
  ret void
}

define i64 @main() gc "statepoint-example" {
entry:
  %cell = call ptr addrspace(1) @gc_new.Cell(i64 2)
  %second = getelementptr %Cell, ptr addrspace(1) %cell, i64 1
  call void @gc_check(ptr addrspace(1) %cell, ptr addrspace(1) %second, i64 0)
  store i64 7, ptr addrspace(1) %second
  call void @other()
  call void @gc_check(ptr addrspace(1) %cell, ptr addrspace(1) %second, i64 0)
  %number = load i64, ptr addrspace(1) %second
  call void @print_i64(i64 %number)
  ret i64 0
}
