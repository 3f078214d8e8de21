define i65 @f() {
entry:
  ret i65 0
}
