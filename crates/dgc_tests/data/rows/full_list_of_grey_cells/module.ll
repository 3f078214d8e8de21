%Node = type { i64, %Node* }
@g0 = global %Node* null
@g1 = global %Node* null
@g2 = global %Node* null
@g3 = global %Node* null
@g4 = global %Node* null
@g5 = global %Node* null
@g6 = global %Node* null
@g7 = global %Node* null
@g8 = global %Node* null
@g9 = global %Node* null
@g10 = global %Node* null
@g11 = global %Node* null
@g12 = global %Node* null
@g13 = global %Node* null
@g14 = global %Node* null
@g15 = global %Node* null
@g16 = global %Node* null
@g17 = global %Node* null
@g18 = global %Node* null
@g19 = global %Node* null
@g20 = global %Node* null
@g21 = global %Node* null
@g22 = global %Node* null
@g23 = global %Node* null
@g24 = global %Node* null
@g25 = global %Node* null
@g26 = global %Node* null
@g27 = global %Node* null
@g28 = global %Node* null
@g29 = global %Node* null
@g30 = global %Node* null
@g31 = global %Node* null
@g32 = global %Node* null
@g33 = global %Node* null
@g34 = global %Node* null
@g35 = global %Node* null
@g36 = global %Node* null
@g37 = global %Node* null
@g38 = global %Node* null
@g39 = global %Node* null
@g40 = global %Node* null
@g41 = global %Node* null
@g42 = global %Node* null
@g43 = global %Node* null
@g44 = global %Node* null
@g45 = global %Node* null
@g46 = global %Node* null
@g47 = global %Node* null
@g48 = global %Node* null
@g49 = global %Node* null
@g50 = global %Node* null
@g51 = global %Node* null
@g52 = global %Node* null
@g53 = global %Node* null
@g54 = global %Node* null
@g55 = global %Node* null
@g56 = global %Node* null
@g57 = global %Node* null
@g58 = global %Node* null
@g59 = global %Node* null
@g60 = global %Node* null
@g61 = global %Node* null
@g62 = global %Node* null
@g63 = global %Node* null
@g64 = global %Node* null
@g65 = global %Node* null
@g66 = global %Node* null
@g67 = global %Node* null
@g68 = global %Node* null
@g69 = global %Node* null
declare i8* @dg_alloc(i32)
declare void @dg_safepoint()
declare void @llvm.gcwrite(i8*, i8*, i8**)
define void @chains() gc "shadow-stack" {
entry:
  %a0 = call i8* @dg_alloc(i32 0)
  %b0 = call i8* @dg_alloc(i32 0)
  %x0 = bitcast i8* %a0 to %Node*
  %y0 = bitcast i8* %b0 to %Node*
  %f0 = getelementptr %Node, %Node* %y0, i32 0, i32 1
  store %Node* %x0, %Node** %f0
  call void @llvm.gcwrite(i8* %b0, i8* null, i8** bitcast (%Node** @g0 to i8**))
  %a1 = call i8* @dg_alloc(i32 0)
  %b1 = call i8* @dg_alloc(i32 0)
  %x1 = bitcast i8* %a1 to %Node*
  %y1 = bitcast i8* %b1 to %Node*
  %f1 = getelementptr %Node, %Node* %y1, i32 0, i32 1
  store %Node* %x1, %Node** %f1
  call void @llvm.gcwrite(i8* %b1, i8* null, i8** bitcast (%Node** @g1 to i8**))
  %a2 = call i8* @dg_alloc(i32 0)
  %b2 = call i8* @dg_alloc(i32 0)
  %x2 = bitcast i8* %a2 to %Node*
  %y2 = bitcast i8* %b2 to %Node*
  %f2 = getelementptr %Node, %Node* %y2, i32 0, i32 1
  store %Node* %x2, %Node** %f2
  call void @llvm.gcwrite(i8* %b2, i8* null, i8** bitcast (%Node** @g2 to i8**))
  %a3 = call i8* @dg_alloc(i32 0)
  %b3 = call i8* @dg_alloc(i32 0)
  %x3 = bitcast i8* %a3 to %Node*
  %y3 = bitcast i8* %b3 to %Node*
  %f3 = getelementptr %Node, %Node* %y3, i32 0, i32 1
  store %Node* %x3, %Node** %f3
  call void @llvm.gcwrite(i8* %b3, i8* null, i8** bitcast (%Node** @g3 to i8**))
  %a4 = call i8* @dg_alloc(i32 0)
  %b4 = call i8* @dg_alloc(i32 0)
  %x4 = bitcast i8* %a4 to %Node*
  %y4 = bitcast i8* %b4 to %Node*
  %f4 = getelementptr %Node, %Node* %y4, i32 0, i32 1
  store %Node* %x4, %Node** %f4
  call void @llvm.gcwrite(i8* %b4, i8* null, i8** bitcast (%Node** @g4 to i8**))
  %a5 = call i8* @dg_alloc(i32 0)
  %b5 = call i8* @dg_alloc(i32 0)
  %x5 = bitcast i8* %a5 to %Node*
  %y5 = bitcast i8* %b5 to %Node*
  %f5 = getelementptr %Node, %Node* %y5, i32 0, i32 1
  store %Node* %x5, %Node** %f5
  call void @llvm.gcwrite(i8* %b5, i8* null, i8** bitcast (%Node** @g5 to i8**))
  %a6 = call i8* @dg_alloc(i32 0)
  %b6 = call i8* @dg_alloc(i32 0)
  %x6 = bitcast i8* %a6 to %Node*
  %y6 = bitcast i8* %b6 to %Node*
  %f6 = getelementptr %Node, %Node* %y6, i32 0, i32 1
  store %Node* %x6, %Node** %f6
  call void @llvm.gcwrite(i8* %b6, i8* null, i8** bitcast (%Node** @g6 to i8**))
  %a7 = call i8* @dg_alloc(i32 0)
  %b7 = call i8* @dg_alloc(i32 0)
  %x7 = bitcast i8* %a7 to %Node*
  %y7 = bitcast i8* %b7 to %Node*
  %f7 = getelementptr %Node, %Node* %y7, i32 0, i32 1
  store %Node* %x7, %Node** %f7
  call void @llvm.gcwrite(i8* %b7, i8* null, i8** bitcast (%Node** @g7 to i8**))
  %a8 = call i8* @dg_alloc(i32 0)
  %b8 = call i8* @dg_alloc(i32 0)
  %x8 = bitcast i8* %a8 to %Node*
  %y8 = bitcast i8* %b8 to %Node*
  %f8 = getelementptr %Node, %Node* %y8, i32 0, i32 1
  store %Node* %x8, %Node** %f8
  call void @llvm.gcwrite(i8* %b8, i8* null, i8** bitcast (%Node** @g8 to i8**))
  %a9 = call i8* @dg_alloc(i32 0)
  %b9 = call i8* @dg_alloc(i32 0)
  %x9 = bitcast i8* %a9 to %Node*
  %y9 = bitcast i8* %b9 to %Node*
  %f9 = getelementptr %Node, %Node* %y9, i32 0, i32 1
  store %Node* %x9, %Node** %f9
  call void @llvm.gcwrite(i8* %b9, i8* null, i8** bitcast (%Node** @g9 to i8**))
  %a10 = call i8* @dg_alloc(i32 0)
  %b10 = call i8* @dg_alloc(i32 0)
  %x10 = bitcast i8* %a10 to %Node*
  %y10 = bitcast i8* %b10 to %Node*
  %f10 = getelementptr %Node, %Node* %y10, i32 0, i32 1
  store %Node* %x10, %Node** %f10
  call void @llvm.gcwrite(i8* %b10, i8* null, i8** bitcast (%Node** @g10 to i8**))
  %a11 = call i8* @dg_alloc(i32 0)
  %b11 = call i8* @dg_alloc(i32 0)
  %x11 = bitcast i8* %a11 to %Node*
  %y11 = bitcast i8* %b11 to %Node*
  %f11 = getelementptr %Node, %Node* %y11, i32 0, i32 1
  store %Node* %x11, %Node** %f11
  call void @llvm.gcwrite(i8* %b11, i8* null, i8** bitcast (%Node** @g11 to i8**))
  %a12 = call i8* @dg_alloc(i32 0)
  %b12 = call i8* @dg_alloc(i32 0)
  %x12 = bitcast i8* %a12 to %Node*
  %y12 = bitcast i8* %b12 to %Node*
  %f12 = getelementptr %Node, %Node* %y12, i32 0, i32 1
  store %Node* %x12, %Node** %f12
  call void @llvm.gcwrite(i8* %b12, i8* null, i8** bitcast (%Node** @g12 to i8**))
  %a13 = call i8* @dg_alloc(i32 0)
  %b13 = call i8* @dg_alloc(i32 0)
  %x13 = bitcast i8* %a13 to %Node*
  %y13 = bitcast i8* %b13 to %Node*
  %f13 = getelementptr %Node, %Node* %y13, i32 0, i32 1
  store %Node* %x13, %Node** %f13
  call void @llvm.gcwrite(i8* %b13, i8* null, i8** bitcast (%Node** @g13 to i8**))
  %a14 = call i8* @dg_alloc(i32 0)
  %b14 = call i8* @dg_alloc(i32 0)
  %x14 = bitcast i8* %a14 to %Node*
  %y14 = bitcast i8* %b14 to %Node*
  %f14 = getelementptr %Node, %Node* %y14, i32 0, i32 1
  store %Node* %x14, %Node** %f14
  call void @llvm.gcwrite(i8* %b14, i8* null, i8** bitcast (%Node** @g14 to i8**))
  %a15 = call i8* @dg_alloc(i32 0)
  %b15 = call i8* @dg_alloc(i32 0)
  %x15 = bitcast i8* %a15 to %Node*
  %y15 = bitcast i8* %b15 to %Node*
  %f15 = getelementptr %Node, %Node* %y15, i32 0, i32 1
  store %Node* %x15, %Node** %f15
  call void @llvm.gcwrite(i8* %b15, i8* null, i8** bitcast (%Node** @g15 to i8**))
  %a16 = call i8* @dg_alloc(i32 0)
  %b16 = call i8* @dg_alloc(i32 0)
  %x16 = bitcast i8* %a16 to %Node*
  %y16 = bitcast i8* %b16 to %Node*
  %f16 = getelementptr %Node, %Node* %y16, i32 0, i32 1
  store %Node* %x16, %Node** %f16
  call void @llvm.gcwrite(i8* %b16, i8* null, i8** bitcast (%Node** @g16 to i8**))
  %a17 = call i8* @dg_alloc(i32 0)
  %b17 = call i8* @dg_alloc(i32 0)
  %x17 = bitcast i8* %a17 to %Node*
  %y17 = bitcast i8* %b17 to %Node*
  %f17 = getelementptr %Node, %Node* %y17, i32 0, i32 1
  store %Node* %x17, %Node** %f17
  call void @llvm.gcwrite(i8* %b17, i8* null, i8** bitcast (%Node** @g17 to i8**))
  %a18 = call i8* @dg_alloc(i32 0)
  %b18 = call i8* @dg_alloc(i32 0)
  %x18 = bitcast i8* %a18 to %Node*
  %y18 = bitcast i8* %b18 to %Node*
  %f18 = getelementptr %Node, %Node* %y18, i32 0, i32 1
  store %Node* %x18, %Node** %f18
  call void @llvm.gcwrite(i8* %b18, i8* null, i8** bitcast (%Node** @g18 to i8**))
  %a19 = call i8* @dg_alloc(i32 0)
  %b19 = call i8* @dg_alloc(i32 0)
  %x19 = bitcast i8* %a19 to %Node*
  %y19 = bitcast i8* %b19 to %Node*
  %f19 = getelementptr %Node, %Node* %y19, i32 0, i32 1
  store %Node* %x19, %Node** %f19
  call void @llvm.gcwrite(i8* %b19, i8* null, i8** bitcast (%Node** @g19 to i8**))
  %a20 = call i8* @dg_alloc(i32 0)
  %b20 = call i8* @dg_alloc(i32 0)
  %x20 = bitcast i8* %a20 to %Node*
  %y20 = bitcast i8* %b20 to %Node*
  %f20 = getelementptr %Node, %Node* %y20, i32 0, i32 1
  store %Node* %x20, %Node** %f20
  call void @llvm.gcwrite(i8* %b20, i8* null, i8** bitcast (%Node** @g20 to i8**))
  %a21 = call i8* @dg_alloc(i32 0)
  %b21 = call i8* @dg_alloc(i32 0)
  %x21 = bitcast i8* %a21 to %Node*
  %y21 = bitcast i8* %b21 to %Node*
  %f21 = getelementptr %Node, %Node* %y21, i32 0, i32 1
  store %Node* %x21, %Node** %f21
  call void @llvm.gcwrite(i8* %b21, i8* null, i8** bitcast (%Node** @g21 to i8**))
  %a22 = call i8* @dg_alloc(i32 0)
  %b22 = call i8* @dg_alloc(i32 0)
  %x22 = bitcast i8* %a22 to %Node*
  %y22 = bitcast i8* %b22 to %Node*
  %f22 = getelementptr %Node, %Node* %y22, i32 0, i32 1
  store %Node* %x22, %Node** %f22
  call void @llvm.gcwrite(i8* %b22, i8* null, i8** bitcast (%Node** @g22 to i8**))
  %a23 = call i8* @dg_alloc(i32 0)
  %b23 = call i8* @dg_alloc(i32 0)
  %x23 = bitcast i8* %a23 to %Node*
  %y23 = bitcast i8* %b23 to %Node*
  %f23 = getelementptr %Node, %Node* %y23, i32 0, i32 1
  store %Node* %x23, %Node** %f23
  call void @llvm.gcwrite(i8* %b23, i8* null, i8** bitcast (%Node** @g23 to i8**))
  %a24 = call i8* @dg_alloc(i32 0)
  %b24 = call i8* @dg_alloc(i32 0)
  %x24 = bitcast i8* %a24 to %Node*
  %y24 = bitcast i8* %b24 to %Node*
  %f24 = getelementptr %Node, %Node* %y24, i32 0, i32 1
  store %Node* %x24, %Node** %f24
  call void @llvm.gcwrite(i8* %b24, i8* null, i8** bitcast (%Node** @g24 to i8**))
  %a25 = call i8* @dg_alloc(i32 0)
  %b25 = call i8* @dg_alloc(i32 0)
  %x25 = bitcast i8* %a25 to %Node*
  %y25 = bitcast i8* %b25 to %Node*
  %f25 = getelementptr %Node, %Node* %y25, i32 0, i32 1
  store %Node* %x25, %Node** %f25
  call void @llvm.gcwrite(i8* %b25, i8* null, i8** bitcast (%Node** @g25 to i8**))
  %a26 = call i8* @dg_alloc(i32 0)
  %b26 = call i8* @dg_alloc(i32 0)
  %x26 = bitcast i8* %a26 to %Node*
  %y26 = bitcast i8* %b26 to %Node*
  %f26 = getelementptr %Node, %Node* %y26, i32 0, i32 1
  store %Node* %x26, %Node** %f26
  call void @llvm.gcwrite(i8* %b26, i8* null, i8** bitcast (%Node** @g26 to i8**))
  %a27 = call i8* @dg_alloc(i32 0)
  %b27 = call i8* @dg_alloc(i32 0)
  %x27 = bitcast i8* %a27 to %Node*
  %y27 = bitcast i8* %b27 to %Node*
  %f27 = getelementptr %Node, %Node* %y27, i32 0, i32 1
  store %Node* %x27, %Node** %f27
  call void @llvm.gcwrite(i8* %b27, i8* null, i8** bitcast (%Node** @g27 to i8**))
  %a28 = call i8* @dg_alloc(i32 0)
  %b28 = call i8* @dg_alloc(i32 0)
  %x28 = bitcast i8* %a28 to %Node*
  %y28 = bitcast i8* %b28 to %Node*
  %f28 = getelementptr %Node, %Node* %y28, i32 0, i32 1
  store %Node* %x28, %Node** %f28
  call void @llvm.gcwrite(i8* %b28, i8* null, i8** bitcast (%Node** @g28 to i8**))
  %a29 = call i8* @dg_alloc(i32 0)
  %b29 = call i8* @dg_alloc(i32 0)
  %x29 = bitcast i8* %a29 to %Node*
  %y29 = bitcast i8* %b29 to %Node*
  %f29 = getelementptr %Node, %Node* %y29, i32 0, i32 1
  store %Node* %x29, %Node** %f29
  call void @llvm.gcwrite(i8* %b29, i8* null, i8** bitcast (%Node** @g29 to i8**))
  %a30 = call i8* @dg_alloc(i32 0)
  %b30 = call i8* @dg_alloc(i32 0)
  %x30 = bitcast i8* %a30 to %Node*
  %y30 = bitcast i8* %b30 to %Node*
  %f30 = getelementptr %Node, %Node* %y30, i32 0, i32 1
  store %Node* %x30, %Node** %f30
  call void @llvm.gcwrite(i8* %b30, i8* null, i8** bitcast (%Node** @g30 to i8**))
  %a31 = call i8* @dg_alloc(i32 0)
  %b31 = call i8* @dg_alloc(i32 0)
  %x31 = bitcast i8* %a31 to %Node*
  %y31 = bitcast i8* %b31 to %Node*
  %f31 = getelementptr %Node, %Node* %y31, i32 0, i32 1
  store %Node* %x31, %Node** %f31
  call void @llvm.gcwrite(i8* %b31, i8* null, i8** bitcast (%Node** @g31 to i8**))
  %a32 = call i8* @dg_alloc(i32 0)
  %b32 = call i8* @dg_alloc(i32 0)
  %x32 = bitcast i8* %a32 to %Node*
  %y32 = bitcast i8* %b32 to %Node*
  %f32 = getelementptr %Node, %Node* %y32, i32 0, i32 1
  store %Node* %x32, %Node** %f32
  call void @llvm.gcwrite(i8* %b32, i8* null, i8** bitcast (%Node** @g32 to i8**))
  %a33 = call i8* @dg_alloc(i32 0)
  %b33 = call i8* @dg_alloc(i32 0)
  %x33 = bitcast i8* %a33 to %Node*
  %y33 = bitcast i8* %b33 to %Node*
  %f33 = getelementptr %Node, %Node* %y33, i32 0, i32 1
  store %Node* %x33, %Node** %f33
  call void @llvm.gcwrite(i8* %b33, i8* null, i8** bitcast (%Node** @g33 to i8**))
  %a34 = call i8* @dg_alloc(i32 0)
  %b34 = call i8* @dg_alloc(i32 0)
  %x34 = bitcast i8* %a34 to %Node*
  %y34 = bitcast i8* %b34 to %Node*
  %f34 = getelementptr %Node, %Node* %y34, i32 0, i32 1
  store %Node* %x34, %Node** %f34
  call void @llvm.gcwrite(i8* %b34, i8* null, i8** bitcast (%Node** @g34 to i8**))
  %a35 = call i8* @dg_alloc(i32 0)
  %b35 = call i8* @dg_alloc(i32 0)
  %x35 = bitcast i8* %a35 to %Node*
  %y35 = bitcast i8* %b35 to %Node*
  %f35 = getelementptr %Node, %Node* %y35, i32 0, i32 1
  store %Node* %x35, %Node** %f35
  call void @llvm.gcwrite(i8* %b35, i8* null, i8** bitcast (%Node** @g35 to i8**))
  %a36 = call i8* @dg_alloc(i32 0)
  %b36 = call i8* @dg_alloc(i32 0)
  %x36 = bitcast i8* %a36 to %Node*
  %y36 = bitcast i8* %b36 to %Node*
  %f36 = getelementptr %Node, %Node* %y36, i32 0, i32 1
  store %Node* %x36, %Node** %f36
  call void @llvm.gcwrite(i8* %b36, i8* null, i8** bitcast (%Node** @g36 to i8**))
  %a37 = call i8* @dg_alloc(i32 0)
  %b37 = call i8* @dg_alloc(i32 0)
  %x37 = bitcast i8* %a37 to %Node*
  %y37 = bitcast i8* %b37 to %Node*
  %f37 = getelementptr %Node, %Node* %y37, i32 0, i32 1
  store %Node* %x37, %Node** %f37
  call void @llvm.gcwrite(i8* %b37, i8* null, i8** bitcast (%Node** @g37 to i8**))
  %a38 = call i8* @dg_alloc(i32 0)
  %b38 = call i8* @dg_alloc(i32 0)
  %x38 = bitcast i8* %a38 to %Node*
  %y38 = bitcast i8* %b38 to %Node*
  %f38 = getelementptr %Node, %Node* %y38, i32 0, i32 1
  store %Node* %x38, %Node** %f38
  call void @llvm.gcwrite(i8* %b38, i8* null, i8** bitcast (%Node** @g38 to i8**))
  %a39 = call i8* @dg_alloc(i32 0)
  %b39 = call i8* @dg_alloc(i32 0)
  %x39 = bitcast i8* %a39 to %Node*
  %y39 = bitcast i8* %b39 to %Node*
  %f39 = getelementptr %Node, %Node* %y39, i32 0, i32 1
  store %Node* %x39, %Node** %f39
  call void @llvm.gcwrite(i8* %b39, i8* null, i8** bitcast (%Node** @g39 to i8**))
  %a40 = call i8* @dg_alloc(i32 0)
  %b40 = call i8* @dg_alloc(i32 0)
  %x40 = bitcast i8* %a40 to %Node*
  %y40 = bitcast i8* %b40 to %Node*
  %f40 = getelementptr %Node, %Node* %y40, i32 0, i32 1
  store %Node* %x40, %Node** %f40
  call void @llvm.gcwrite(i8* %b40, i8* null, i8** bitcast (%Node** @g40 to i8**))
  %a41 = call i8* @dg_alloc(i32 0)
  %b41 = call i8* @dg_alloc(i32 0)
  %x41 = bitcast i8* %a41 to %Node*
  %y41 = bitcast i8* %b41 to %Node*
  %f41 = getelementptr %Node, %Node* %y41, i32 0, i32 1
  store %Node* %x41, %Node** %f41
  call void @llvm.gcwrite(i8* %b41, i8* null, i8** bitcast (%Node** @g41 to i8**))
  %a42 = call i8* @dg_alloc(i32 0)
  %b42 = call i8* @dg_alloc(i32 0)
  %x42 = bitcast i8* %a42 to %Node*
  %y42 = bitcast i8* %b42 to %Node*
  %f42 = getelementptr %Node, %Node* %y42, i32 0, i32 1
  store %Node* %x42, %Node** %f42
  call void @llvm.gcwrite(i8* %b42, i8* null, i8** bitcast (%Node** @g42 to i8**))
  %a43 = call i8* @dg_alloc(i32 0)
  %b43 = call i8* @dg_alloc(i32 0)
  %x43 = bitcast i8* %a43 to %Node*
  %y43 = bitcast i8* %b43 to %Node*
  %f43 = getelementptr %Node, %Node* %y43, i32 0, i32 1
  store %Node* %x43, %Node** %f43
  call void @llvm.gcwrite(i8* %b43, i8* null, i8** bitcast (%Node** @g43 to i8**))
  %a44 = call i8* @dg_alloc(i32 0)
  %b44 = call i8* @dg_alloc(i32 0)
  %x44 = bitcast i8* %a44 to %Node*
  %y44 = bitcast i8* %b44 to %Node*
  %f44 = getelementptr %Node, %Node* %y44, i32 0, i32 1
  store %Node* %x44, %Node** %f44
  call void @llvm.gcwrite(i8* %b44, i8* null, i8** bitcast (%Node** @g44 to i8**))
  %a45 = call i8* @dg_alloc(i32 0)
  %b45 = call i8* @dg_alloc(i32 0)
  %x45 = bitcast i8* %a45 to %Node*
  %y45 = bitcast i8* %b45 to %Node*
  %f45 = getelementptr %Node, %Node* %y45, i32 0, i32 1
  store %Node* %x45, %Node** %f45
  call void @llvm.gcwrite(i8* %b45, i8* null, i8** bitcast (%Node** @g45 to i8**))
  %a46 = call i8* @dg_alloc(i32 0)
  %b46 = call i8* @dg_alloc(i32 0)
  %x46 = bitcast i8* %a46 to %Node*
  %y46 = bitcast i8* %b46 to %Node*
  %f46 = getelementptr %Node, %Node* %y46, i32 0, i32 1
  store %Node* %x46, %Node** %f46
  call void @llvm.gcwrite(i8* %b46, i8* null, i8** bitcast (%Node** @g46 to i8**))
  %a47 = call i8* @dg_alloc(i32 0)
  %b47 = call i8* @dg_alloc(i32 0)
  %x47 = bitcast i8* %a47 to %Node*
  %y47 = bitcast i8* %b47 to %Node*
  %f47 = getelementptr %Node, %Node* %y47, i32 0, i32 1
  store %Node* %x47, %Node** %f47
  call void @llvm.gcwrite(i8* %b47, i8* null, i8** bitcast (%Node** @g47 to i8**))
  %a48 = call i8* @dg_alloc(i32 0)
  %b48 = call i8* @dg_alloc(i32 0)
  %x48 = bitcast i8* %a48 to %Node*
  %y48 = bitcast i8* %b48 to %Node*
  %f48 = getelementptr %Node, %Node* %y48, i32 0, i32 1
  store %Node* %x48, %Node** %f48
  call void @llvm.gcwrite(i8* %b48, i8* null, i8** bitcast (%Node** @g48 to i8**))
  %a49 = call i8* @dg_alloc(i32 0)
  %b49 = call i8* @dg_alloc(i32 0)
  %x49 = bitcast i8* %a49 to %Node*
  %y49 = bitcast i8* %b49 to %Node*
  %f49 = getelementptr %Node, %Node* %y49, i32 0, i32 1
  store %Node* %x49, %Node** %f49
  call void @llvm.gcwrite(i8* %b49, i8* null, i8** bitcast (%Node** @g49 to i8**))
  %a50 = call i8* @dg_alloc(i32 0)
  %b50 = call i8* @dg_alloc(i32 0)
  %x50 = bitcast i8* %a50 to %Node*
  %y50 = bitcast i8* %b50 to %Node*
  %f50 = getelementptr %Node, %Node* %y50, i32 0, i32 1
  store %Node* %x50, %Node** %f50
  call void @llvm.gcwrite(i8* %b50, i8* null, i8** bitcast (%Node** @g50 to i8**))
  %a51 = call i8* @dg_alloc(i32 0)
  %b51 = call i8* @dg_alloc(i32 0)
  %x51 = bitcast i8* %a51 to %Node*
  %y51 = bitcast i8* %b51 to %Node*
  %f51 = getelementptr %Node, %Node* %y51, i32 0, i32 1
  store %Node* %x51, %Node** %f51
  call void @llvm.gcwrite(i8* %b51, i8* null, i8** bitcast (%Node** @g51 to i8**))
  %a52 = call i8* @dg_alloc(i32 0)
  %b52 = call i8* @dg_alloc(i32 0)
  %x52 = bitcast i8* %a52 to %Node*
  %y52 = bitcast i8* %b52 to %Node*
  %f52 = getelementptr %Node, %Node* %y52, i32 0, i32 1
  store %Node* %x52, %Node** %f52
  call void @llvm.gcwrite(i8* %b52, i8* null, i8** bitcast (%Node** @g52 to i8**))
  %a53 = call i8* @dg_alloc(i32 0)
  %b53 = call i8* @dg_alloc(i32 0)
  %x53 = bitcast i8* %a53 to %Node*
  %y53 = bitcast i8* %b53 to %Node*
  %f53 = getelementptr %Node, %Node* %y53, i32 0, i32 1
  store %Node* %x53, %Node** %f53
  call void @llvm.gcwrite(i8* %b53, i8* null, i8** bitcast (%Node** @g53 to i8**))
  %a54 = call i8* @dg_alloc(i32 0)
  %b54 = call i8* @dg_alloc(i32 0)
  %x54 = bitcast i8* %a54 to %Node*
  %y54 = bitcast i8* %b54 to %Node*
  %f54 = getelementptr %Node, %Node* %y54, i32 0, i32 1
  store %Node* %x54, %Node** %f54
  call void @llvm.gcwrite(i8* %b54, i8* null, i8** bitcast (%Node** @g54 to i8**))
  %a55 = call i8* @dg_alloc(i32 0)
  %b55 = call i8* @dg_alloc(i32 0)
  %x55 = bitcast i8* %a55 to %Node*
  %y55 = bitcast i8* %b55 to %Node*
  %f55 = getelementptr %Node, %Node* %y55, i32 0, i32 1
  store %Node* %x55, %Node** %f55
  call void @llvm.gcwrite(i8* %b55, i8* null, i8** bitcast (%Node** @g55 to i8**))
  %a56 = call i8* @dg_alloc(i32 0)
  %b56 = call i8* @dg_alloc(i32 0)
  %x56 = bitcast i8* %a56 to %Node*
  %y56 = bitcast i8* %b56 to %Node*
  %f56 = getelementptr %Node, %Node* %y56, i32 0, i32 1
  store %Node* %x56, %Node** %f56
  call void @llvm.gcwrite(i8* %b56, i8* null, i8** bitcast (%Node** @g56 to i8**))
  %a57 = call i8* @dg_alloc(i32 0)
  %b57 = call i8* @dg_alloc(i32 0)
  %x57 = bitcast i8* %a57 to %Node*
  %y57 = bitcast i8* %b57 to %Node*
  %f57 = getelementptr %Node, %Node* %y57, i32 0, i32 1
  store %Node* %x57, %Node** %f57
  call void @llvm.gcwrite(i8* %b57, i8* null, i8** bitcast (%Node** @g57 to i8**))
  %a58 = call i8* @dg_alloc(i32 0)
  %b58 = call i8* @dg_alloc(i32 0)
  %x58 = bitcast i8* %a58 to %Node*
  %y58 = bitcast i8* %b58 to %Node*
  %f58 = getelementptr %Node, %Node* %y58, i32 0, i32 1
  store %Node* %x58, %Node** %f58
  call void @llvm.gcwrite(i8* %b58, i8* null, i8** bitcast (%Node** @g58 to i8**))
  %a59 = call i8* @dg_alloc(i32 0)
  %b59 = call i8* @dg_alloc(i32 0)
  %x59 = bitcast i8* %a59 to %Node*
  %y59 = bitcast i8* %b59 to %Node*
  %f59 = getelementptr %Node, %Node* %y59, i32 0, i32 1
  store %Node* %x59, %Node** %f59
  call void @llvm.gcwrite(i8* %b59, i8* null, i8** bitcast (%Node** @g59 to i8**))
  %a60 = call i8* @dg_alloc(i32 0)
  %b60 = call i8* @dg_alloc(i32 0)
  %x60 = bitcast i8* %a60 to %Node*
  %y60 = bitcast i8* %b60 to %Node*
  %f60 = getelementptr %Node, %Node* %y60, i32 0, i32 1
  store %Node* %x60, %Node** %f60
  call void @llvm.gcwrite(i8* %b60, i8* null, i8** bitcast (%Node** @g60 to i8**))
  %a61 = call i8* @dg_alloc(i32 0)
  %b61 = call i8* @dg_alloc(i32 0)
  %x61 = bitcast i8* %a61 to %Node*
  %y61 = bitcast i8* %b61 to %Node*
  %f61 = getelementptr %Node, %Node* %y61, i32 0, i32 1
  store %Node* %x61, %Node** %f61
  call void @llvm.gcwrite(i8* %b61, i8* null, i8** bitcast (%Node** @g61 to i8**))
  %a62 = call i8* @dg_alloc(i32 0)
  %b62 = call i8* @dg_alloc(i32 0)
  %x62 = bitcast i8* %a62 to %Node*
  %y62 = bitcast i8* %b62 to %Node*
  %f62 = getelementptr %Node, %Node* %y62, i32 0, i32 1
  store %Node* %x62, %Node** %f62
  call void @llvm.gcwrite(i8* %b62, i8* null, i8** bitcast (%Node** @g62 to i8**))
  %a63 = call i8* @dg_alloc(i32 0)
  %b63 = call i8* @dg_alloc(i32 0)
  %x63 = bitcast i8* %a63 to %Node*
  %y63 = bitcast i8* %b63 to %Node*
  %f63 = getelementptr %Node, %Node* %y63, i32 0, i32 1
  store %Node* %x63, %Node** %f63
  call void @llvm.gcwrite(i8* %b63, i8* null, i8** bitcast (%Node** @g63 to i8**))
  %a64 = call i8* @dg_alloc(i32 0)
  %b64 = call i8* @dg_alloc(i32 0)
  %x64 = bitcast i8* %a64 to %Node*
  %y64 = bitcast i8* %b64 to %Node*
  %f64 = getelementptr %Node, %Node* %y64, i32 0, i32 1
  store %Node* %x64, %Node** %f64
  call void @llvm.gcwrite(i8* %b64, i8* null, i8** bitcast (%Node** @g64 to i8**))
  %a65 = call i8* @dg_alloc(i32 0)
  %b65 = call i8* @dg_alloc(i32 0)
  %x65 = bitcast i8* %a65 to %Node*
  %y65 = bitcast i8* %b65 to %Node*
  %f65 = getelementptr %Node, %Node* %y65, i32 0, i32 1
  store %Node* %x65, %Node** %f65
  call void @llvm.gcwrite(i8* %b65, i8* null, i8** bitcast (%Node** @g65 to i8**))
  %a66 = call i8* @dg_alloc(i32 0)
  %b66 = call i8* @dg_alloc(i32 0)
  %x66 = bitcast i8* %a66 to %Node*
  %y66 = bitcast i8* %b66 to %Node*
  %f66 = getelementptr %Node, %Node* %y66, i32 0, i32 1
  store %Node* %x66, %Node** %f66
  call void @llvm.gcwrite(i8* %b66, i8* null, i8** bitcast (%Node** @g66 to i8**))
  %a67 = call i8* @dg_alloc(i32 0)
  %b67 = call i8* @dg_alloc(i32 0)
  %x67 = bitcast i8* %a67 to %Node*
  %y67 = bitcast i8* %b67 to %Node*
  %f67 = getelementptr %Node, %Node* %y67, i32 0, i32 1
  store %Node* %x67, %Node** %f67
  call void @llvm.gcwrite(i8* %b67, i8* null, i8** bitcast (%Node** @g67 to i8**))
  %a68 = call i8* @dg_alloc(i32 0)
  %b68 = call i8* @dg_alloc(i32 0)
  %x68 = bitcast i8* %a68 to %Node*
  %y68 = bitcast i8* %b68 to %Node*
  %f68 = getelementptr %Node, %Node* %y68, i32 0, i32 1
  store %Node* %x68, %Node** %f68
  call void @llvm.gcwrite(i8* %b68, i8* null, i8** bitcast (%Node** @g68 to i8**))
  %a69 = call i8* @dg_alloc(i32 0)
  %b69 = call i8* @dg_alloc(i32 0)
  %x69 = bitcast i8* %a69 to %Node*
  %y69 = bitcast i8* %b69 to %Node*
  %f69 = getelementptr %Node, %Node* %y69, i32 0, i32 1
  store %Node* %x69, %Node** %f69
  call void @llvm.gcwrite(i8* %b69, i8* null, i8** bitcast (%Node** @g69 to i8**))
  br label %loop
loop:
  call void @dg_safepoint()
  br label %loop
}
