; A list of the numbers that are read, the last one first, and their sum.
%Node = type { i64, ptr addrspace(1) }

declare ptr addrspace(1) @gc_new.Node(i64)
declare void @print_i64(i64)
declare i64 @read_i64()

define ptr addrspace(1) @prepend(i64 %value, ptr addrspace(1) %list) gc "statepoint-example" {
entry:
  %node = call ptr addrspace(1) @gc_new.Node(i64 1)
  store i64 %value, ptr addrspace(1) %node
  %link = getelementptr %Node, ptr addrspace(1) %node, i64 0, i32 1
  store ptr addrspace(1) %list, ptr addrspace(1) %link
  ret ptr addrspace(1) %node
}

define i64 @main() gc "statepoint-example" {
entry:
  %count = call i64 @read_i64()
  br label %build
build:
  %list = phi ptr addrspace(1) [ null, %entry ], [ %longer, %more ]
  %left = phi i64 [ %count, %entry ], [ %less, %more ]
  %empty = icmp eq i64 %left, 0
  br i1 %empty, label %walk, label %more
more:
  %value = call i64 @read_i64()
  %longer = call ptr addrspace(1) @prepend(i64 %value, ptr addrspace(1) %list)
  %less = sub i64 %left, 1
  br label %build
walk:
  %node = phi ptr addrspace(1) [ %list, %build ], [ %next, %show ]
  %sum = phi i64 [ 0, %build ], [ %total, %show ]
  %ended = icmp eq ptr addrspace(1) %node, null
  br i1 %ended, label %done, label %show
show:
  %here = load i64, ptr addrspace(1) %node
  call void @print_i64(i64 %here)
  %total = add i64 %sum, %here
  %link = getelementptr %Node, ptr addrspace(1) %node, i64 0, i32 1
  %next = load ptr addrspace(1), ptr addrspace(1) %link
  br label %walk
done:
  ret i64 %sum
}
