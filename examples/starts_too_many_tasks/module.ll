declare void @task_start(ptr, ptr addrspace(1))

define void @task(ptr addrspace(1) %none) gc "statepoint-example" {
  ret void
}

define i64 @main() gc "statepoint-example" {
entry:
  br label %loop
loop:
  %n = phi i64 [ 1, %entry ], [ %next, %loop ]
  call void @task_start(ptr @task, ptr addrspace(1) null)
  %next = add i64 %n, 1
  br label %loop
}
