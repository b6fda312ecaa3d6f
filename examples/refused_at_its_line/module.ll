declare void @print_i64(i64)

define i64 @main() gc "statepoint-example" {
entry:
  %sum = add i64 %later, 2
  %later = add i64 1, 1
  ret i64 %sum
}
