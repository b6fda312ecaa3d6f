%Node = type { i64, ptr addrspace(1) }
declare ptr addrspace(1) @gc_new.Node(i64)
declare void @print_i64(i64)

define void @pause() gc "statepoint-example" {
entry:
  ret void
}

; the second of two elements is written before the call and read behind it
define i64 @main() gc "statepoint-example" {
entry:
  %pair = call ptr addrspace(1) @gc_new.Node(i64 2)
  %second = getelementptr %Node, ptr addrspace(1) %pair, i64 1, i32 0
  store i64 9, ptr addrspace(1) %second
  call void @pause()
  %value = load i64, ptr addrspace(1) %second
  call void @print_i64(i64 %value)
  ret i64 %value
}
