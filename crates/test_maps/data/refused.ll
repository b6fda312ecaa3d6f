define i64 @main() gc "statepoint-example" {
0:
  ret i64 %x
}
