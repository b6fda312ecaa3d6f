define i64 @main() gc "statepoint-example" {
  ret i64 0
}

define void @f(i64 %0) gc "statepoint-example" {
  %2 = add i64 %0, 1
  ret void
}
