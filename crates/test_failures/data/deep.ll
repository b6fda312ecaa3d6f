define i64 @down(i64 %n) gc "statepoint-example" {
  %m = add i64 %n, 1
  %r = call i64 @down(i64 %m)
  ret i64 %r
}

define i64 @main() gc "statepoint-example" {
  %r = call i64 @down(i64 0)
  ret i64 %r
}
