; A pointer steps through the cells of an object while new objects are made, and back again.
%Cell = type { i64 }

declare ptr addrspace(1) @gc_new.Cell(i64)
declare void @print_i64(i64)

define i64 @main() gc "statepoint-example" {
entry:
  %row = call ptr addrspace(1) @gc_new.Cell(i64 4)
  br label %fill
fill:
  %at = phi ptr addrspace(1) [ %row, %entry ], [ %behind, %fill ]
  %n = phi i64 [ 1, %entry ], [ %more, %fill ]
  %square = mul i64 %n, %n
  store i64 %square, ptr addrspace(1) %at
  %other = call ptr addrspace(1) @gc_new.Cell(i64 1)
  store i64 %n, ptr addrspace(1) %other
  %behind = getelementptr %Cell, ptr addrspace(1) %at, i64 1
  %more = add i64 %n, 1
  %again = icmp ule i64 %more, 4
  br i1 %again, label %fill, label %sum
sum:
  %from = phi ptr addrspace(1) [ %behind, %fill ], [ %before, %sum ]
  %total = phi i64 [ 0, %fill ], [ %with, %sum ]
  %before = getelementptr %Cell, ptr addrspace(1) %from, i64 -1
  %value = load i64, ptr addrspace(1) %before
  call void @print_i64(i64 %value)
  %with = add i64 %total, %value
  %first = icmp eq ptr addrspace(1) %before, %row
  br i1 %first, label %done, label %sum
done:
  ret i64 %with
}
