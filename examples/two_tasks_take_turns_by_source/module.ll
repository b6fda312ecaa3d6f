; Two tasks take turns over one object, as the plan says.
%Cell = type { i64 }

declare ptr addrspace(1) @gc_new.Cell(i64)
declare void @print_i64(i64)
declare void @task_start(ptr, ptr addrspace(1))

define void @worker(ptr addrspace(1) %shared) gc "statepoint-example" {
entry:
  br label %loop
loop:
  %n = phi i64 [ 0, %entry ], [ %next, %loop ]
  %old = load i64, ptr addrspace(1) %shared
  %new = add i64 %old, 10
  store i64 %new, ptr addrspace(1) %shared
  %next = add i64 %n, 1
  %again = icmp ult i64 %next, 3
  br i1 %again, label %loop, label %done
done:
  ret void
}

define i64 @main() gc "statepoint-example" {
entry:
  %shared = call ptr addrspace(1) @gc_new.Cell(i64 1)
  call void @task_start(ptr @worker, ptr addrspace(1) %shared)
  br label %loop
loop:
  %n = phi i64 [ 0, %entry ], [ %next, %loop ]
  %seen = load i64, ptr addrspace(1) %shared
  call void @print_i64(i64 %seen)
  %next = add i64 %n, 1
  %again = icmp ult i64 %next, 4
  br i1 %again, label %loop, label %done
done:
  ret i64 0
}
