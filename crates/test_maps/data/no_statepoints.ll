declare void @print_i64(i64)

define i64 @main() gc "statepoint-example" {
0:
  call void @print_i64(i64 1)
  ret i64 0
}
