declare void @print_i64(i64)

define i64 @main() gc "statepoint-example" {
entry:
  %sum = add i64 40, 2
  call void @print_i64(i64 %sum)
  %twice = add i64 %sum, %sum
  call void @print_i64(i64 %twice)
  ret i64 %twice
}
