declare void @print_i64(i64)

define i64 @main() gc "statepoint-example" {
entry:
  br label %loop
loop:
  %i = phi i64 [ 0, %entry ], [ %next, %joined ]
  %total = phi i64 [ 0, %entry ], [ %sum, %joined ]
  %rest = urem i64 %i, 4
  switch i64 %rest, label %other [
    i64 0, label %zero
    i64 1, label %one
    i64 -1, label %other
  ]
zero:
  br label %joined
one:
  br label %joined
other:
  br label %joined
joined:
  %part = phi i64 [ 10, %zero ], [ 100, %one ], [ 1, %other ]
  %sum = add i64 %total, %part
  %next = add i64 %i, 1
  %again = icmp ult i64 %next, 10
  br i1 %again, label %loop, label %end
end:
  call void @print_i64(i64 %sum)
  ret i64 %sum
}
