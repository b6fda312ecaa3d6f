declare i64 @read_i64()

define i64 @next() gc "statepoint-example" {
  %x = call i64 @read_i64()
  ret i64 %x
}

define i64 @main() gc "statepoint-example" {
  %x = call i64 @next()
  ret i64 %x
}
