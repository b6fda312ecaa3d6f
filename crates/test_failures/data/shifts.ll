declare void @print_i64(i64)

define i64 @main() gc "statepoint-example" {
entry:
  %top = shl i8 1, 7
  %low = ashr i8 %top, 7
  %wide = sext i8 %low to i64
  call void @print_i64(i64 %wide)
  %none = ashr i8 %top, -1
  %more = sext i8 %none to i64
  ret i64 %more
}
