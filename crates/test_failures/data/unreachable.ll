declare void @print_i64(i64)

define i64 @main() gc "statepoint-example" {
entry:
  %less = icmp slt i8 -1, 1
  br i1 %less, label %end, label %other
end:
  call void @print_i64(i64 1)
  unreachable
other:
  ret i64 0
}
