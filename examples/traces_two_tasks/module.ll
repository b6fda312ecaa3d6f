%Cell = type { i64 }
declare ptr addrspace(1) @gc_new.Cell(i64)
declare void @print_i64(i64)
declare void @task_start(ptr, ptr addrspace(1))

define void @pause() gc "statepoint-example" {
entry:
  ret void
}

define void @worker(ptr addrspace(1) %cell) gc "statepoint-example" {
entry:
  call void @pause()
  %value = load i64, ptr addrspace(1) %cell
  call void @print_i64(i64 %value)
  ret void
}

define i64 @main() gc "statepoint-example" {
entry:
  %cell = call ptr addrspace(1) @gc_new.Cell(i64 1)
  store i64 6, ptr addrspace(1) %cell
  call void @task_start(ptr @worker, ptr addrspace(1) %cell)
  call void @pause()
  %value = load i64, ptr addrspace(1) %cell
  call void @print_i64(i64 %value)
  ret i64 0
}
