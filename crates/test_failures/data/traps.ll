declare void @print_i64(i64)

define i64 @main() gc "statepoint-example" {
entry:
  call void @print_i64(i64 -7)
  %r = call i64 @f(i64 0)
  ret i64 %r
}

define i64 @f(i64 %n) gc "statepoint-example" {
entry:
  %q = udiv i64 1, %n
  ret i64 %q
}
