; Two tasks wait in two frames each. At a trap the frames of the task that runs show what their calls carry.
%Cell = type { i64, ptr addrspace(1) }

declare ptr addrspace(1) @gc_new.Cell(i64)
declare void @task_start(ptr, ptr addrspace(1))

define void @last(i64 %n) gc "statepoint-example" {
entry:
  %z = udiv i64 1, 0
  ret void
}

define void @inner(ptr addrspace(1) %at, i64 %n) gc "statepoint-example" {
entry:
  %p = getelementptr i8, ptr addrspace(1) %at, i64 8
  call void @last(i64 %n) [ "deopt"(i64 %n, ptr addrspace(1) %p, ptr addrspace(1) %at) ]
  ret void
}

define void @worker(ptr addrspace(1) %shared) gc "statepoint-example" {
entry:
  %own = call ptr addrspace(1) @gc_new.Cell(i64 2)
  %in = getelementptr %Cell, ptr addrspace(1) %own, i64 1, i32 0
  call void @inner(ptr addrspace(1) %own, i64 7) [ "deopt"(ptr addrspace(1) %in, ptr addrspace(1) %shared, i1 true) ]
  ret void
}

define i64 @main() gc "statepoint-example" {
entry:
  %shared = call ptr addrspace(1) @gc_new.Cell(i64 1)
  call void @task_start(ptr @worker, ptr addrspace(1) %shared)
  %end = getelementptr %Cell, ptr addrspace(1) %shared, i64 1
  call void @inner(ptr addrspace(1) %shared, i64 5) [ "deopt"(i64 100, ptr addrspace(1) %end, ptr addrspace(1) null) ]
  ret i64 0
}
