define void @f(%Node* %n) {
  %z = load inbounds i64, i64* null
  ret void
}
%Node = type { i64 }
