define i64 @main() gc "statepoint-example" {
entry:
  %r = call i64 @d(i64 3)
  ret i64 %r
}

define i64 @d(i64 %n) gc "statepoint-example" {
entry:
  %c = icmp eq i64 %n, 0
  br i1 %c, label %z, label %s
z:
  ret i64 0
s:
  %m = sub i64 %n, 1
  %r = call i64 @d(i64 %m)
  %t = add i64 %r, %n
  ret i64 %t
}
