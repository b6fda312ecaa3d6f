define i64 @main() gc "statepoint-example" {
  ret i64 0
}

define void @f(i64 %0) gc "statepoint-example" {
1:
  %2 = add i64 %2, 1
  ret void
}
