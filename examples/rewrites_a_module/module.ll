%Cell = type { i64, ptr addrspace(1) }
declare ptr addrspace(1) @gc_new.Cell(i64)
declare void @print_i64(i64)

define void @other() gc "statepoint-example" {
  %1 = call ptr addrspace(1) @gc_new.Cell(i64 1)
  ret void
}

define i64 @main() gc "statepoint-example" {
entry:
  %cell = call ptr addrspace(1) @gc_new.Cell(i64 2)
  %second = getelementptr %Cell, ptr addrspace(1) %cell, i64 1
  store i64 7, ptr addrspace(1) %second
  call void @other()
  %number = load i64, ptr addrspace(1) %second
  call void @print_i64(i64 %number)
  ret i64 0
}
