define i64 @main() gc "statepoint-example" {
entry:
  br i1 true, label %left, label %right
left:
  br label %join
right:
  br label %join
join:
  %x = phi i64 [ 1, %left ]
  ret i64 %x
}
