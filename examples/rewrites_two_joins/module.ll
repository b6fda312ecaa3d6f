; At the first join one version of the pointer arrives, at the second one two, since a new object may have moved it on the way.
%Cell = type { i64 }

declare ptr addrspace(1) @gc_new.Cell(i64)
declare void @print_i64(i64)
declare i64 @read_i64()

define i64 @main() gc "statepoint-example" {
entry:
  %kept = call ptr addrspace(1) @gc_new.Cell(i64 1)
  %x = call i64 @read_i64()
  %is = icmp ne i64 %x, 0
  br i1 %is, label %tell, label %first
tell:
  call void @print_i64(i64 %x)
  br label %first
first:
  store i64 %x, ptr addrspace(1) %kept
  br i1 %is, label %make, label %second
make:
  %other = call ptr addrspace(1) @gc_new.Cell(i64 1)
  store i64 2, ptr addrspace(1) %other
  br label %second
second:
  %value = load i64, ptr addrspace(1) %kept
  call void @print_i64(i64 %value)
  ret i64 0
}
