%Node = type { i64, ptr addrspace(1) }
declare ptr addrspace(1) @gc_new.Node(i64)
declare void @print_i64(i64)

define void @pause() gc "statepoint-example" {
entry:
  ret void
}

; one node points to another
define i64 @main() gc "statepoint-example" {
entry:
  %one = call ptr addrspace(1) @gc_new.Node(i64 1)
  %two = call ptr addrspace(1) @gc_new.Node(i64 1)
  store i64 4, ptr addrspace(1) %two
  %link = getelementptr %Node, ptr addrspace(1) %one, i64 0, i32 1
  store ptr addrspace(1) %two, ptr addrspace(1) %link
  call void @pause()
  call void @pause()
  call void @pause()
  %next.link = getelementptr %Node, ptr addrspace(1) %one, i64 0, i32 1
  %next = load ptr addrspace(1), ptr addrspace(1) %next.link
  %value = load i64, ptr addrspace(1) %next
  call void @print_i64(i64 %value)
  ret i64 0
}
