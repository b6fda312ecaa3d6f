; A leaf never waits, so nothing is asked of what its call carries, and nothing of it is kept.
declare void @print_i64(i64)

define i64 @main() gc "statepoint-example" {
entry:
  call void @print_i64(i64 1) [ "deopt"(i64 %nothing) ]
  ret i64 0
}
