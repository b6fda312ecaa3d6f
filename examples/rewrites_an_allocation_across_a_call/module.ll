; An object is kept across a call that makes others.
%Box = type { i64 }

declare ptr addrspace(1) @gc_new.Box(i64)
declare void @print_i64(i64)

define i64 @churn(i64 %times) gc "statepoint-example" {
entry:
  br label %loop
loop:
  %n = phi i64 [ 0, %entry ], [ %next, %loop ]
  %box = call ptr addrspace(1) @gc_new.Box(i64 2)
  store i64 %n, ptr addrspace(1) %box
  %next = add i64 %n, 1
  %again = icmp ult i64 %next, %times
  br i1 %again, label %loop, label %done
done:
  ret i64 %next
}

define i64 @main() gc "statepoint-example" {
entry:
  %kept = call ptr addrspace(1) @gc_new.Box(i64 1)
  store i64 7, ptr addrspace(1) %kept
  %made = call i64 @churn(i64 3)
  %value = load i64, ptr addrspace(1) %kept
  call void @print_i64(i64 %value)
  %both = add i64 %value, %made
  ret i64 %both
}
