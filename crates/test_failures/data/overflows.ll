declare void @print_i64(i64)

define i32 @main() gc "statepoint-example" {
entry:
  %minus_one = sub i32 0, 1
  %rest = srem i32 7, %minus_one
  %wide = sext i32 %rest to i64
  call void @print_i64(i64 %wide)
  %none = srem i32 -2147483648, %minus_one
  ret i32 %none
}
