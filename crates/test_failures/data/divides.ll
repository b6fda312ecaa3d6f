declare void @print_i64(i64)

define i64 @quotient(i64 %a, i64 %b) gc "statepoint-example" {
entry:
  %q = sdiv i64 %a, %b
  ret i64 %q
}

define i64 @main() gc "statepoint-example" {
entry:
  %q = call i64 @quotient(i64 -7, i64 2)
  call void @print_i64(i64 %q)
  %r = call i64 @quotient(i64 1, i64 0)
  call void @print_i64(i64 %r)
  ret i64 0
}
