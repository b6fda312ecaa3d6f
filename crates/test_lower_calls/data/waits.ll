define i32 @main() gc "statepoint-example" {
a:
  br label %c
b:
  br label %c
c:
  br label %c
}
