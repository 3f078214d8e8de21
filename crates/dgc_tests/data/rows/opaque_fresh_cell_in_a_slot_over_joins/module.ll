%struct.Digit = type { i64, ptr }
declare ptr @dg_alloc(i32)
declare void @dg_safepoint()
declare void @llvm.gcroot(ptr, ptr)
declare ptr @llvm.gcread(ptr, ptr)
declare void @llvm.gcwrite(ptr, ptr, ptr)
define ptr @digits_add(ptr %a, ptr %b, i64 %carry) gc "shadow-stack" {
entry:
  %retval = alloca ptr
  %a.addr = alloca ptr
  %b.addr = alloca ptr
  %carry.addr = alloca i64
  %s = alloca i64
  %r = alloca ptr
  %root$2 = bitcast ptr %retval to ptr
  call void @llvm.gcroot(ptr %root$2, ptr null)
  %root$3 = bitcast ptr %a.addr to ptr
  call void @llvm.gcroot(ptr %root$3, ptr null)
  %root$4 = bitcast ptr %b.addr to ptr
  call void @llvm.gcroot(ptr %root$4, ptr null)
  %root$5 = bitcast ptr %r to ptr
  call void @llvm.gcroot(ptr %root$5, ptr null)
  store ptr %a, ptr %a.addr
  store ptr %b, ptr %b.addr
  store i64 %carry, ptr %carry.addr
  %reg0 = load ptr, ptr %a.addr
  %tobool = icmp ne ptr %reg0, null
  br i1 %tobool, label %if.end, label %land.lhs.true
land.lhs.true:
  %reg1 = load ptr, ptr %b.addr
  %tobool1 = icmp ne ptr %reg1, null
  br i1 %tobool1, label %if.end, label %land.lhs.true2
land.lhs.true2:
  %reg2 = load i64, ptr %carry.addr
  %cmp = icmp eq i64 %reg2, 0
  br i1 %cmp, label %if.then, label %if.end
if.then:
  store ptr null, ptr %retval
  br label %return
if.end:
  %reg3 = load i64, ptr %carry.addr
  store i64 %reg3, ptr %s
  %reg4 = load ptr, ptr %a.addr
  %tobool3 = icmp ne ptr %reg4, null
  br i1 %tobool3, label %if.then4, label %if.end5
if.then4:
  %reg5 = load ptr, ptr %a.addr
  %d = getelementptr %struct.Digit, ptr %reg5, i32 0, i32 0
  %reg6 = load i64, ptr %d
  %reg7 = load i64, ptr %s
  %add = add i64 %reg7, %reg6
  store i64 %add, ptr %s
  br label %if.end5
if.end5:
  %reg8 = load ptr, ptr %b.addr
  %tobool6 = icmp ne ptr %reg8, null
  br i1 %tobool6, label %if.then7, label %if.end10
if.then7:
  %reg9 = load ptr, ptr %b.addr
  %d8 = getelementptr %struct.Digit, ptr %reg9, i32 0, i32 0
  %reg10 = load i64, ptr %d8
  %reg11 = load i64, ptr %s
  %add9 = add i64 %reg11, %reg10
  store i64 %add9, ptr %s
  br label %if.end10
if.end10:
  %cell$1 = call ptr @dg_alloc(i32 0)
  %call = bitcast ptr %cell$1 to ptr
  store ptr %call, ptr %r
  br label %do.body
do.body:
  %reg12 = load ptr, ptr %r
  %tobool11 = icmp ne ptr %reg12, null
  br i1 %tobool11, label %if.end13, label %if.then12
if.then12:
  unreachable
if.end13:
  br label %do.end
do.end:
  %reg13 = load i64, ptr %s
  %cmp14 = icmp sge i64 %reg13, 10
  br i1 %cmp14, label %if.then15, label %if.else
if.then15:
  %reg14 = load i64, ptr %s
  %sub = sub i64 %reg14, 10
  %reg15 = load ptr, ptr %r
  %d16 = getelementptr %struct.Digit, ptr %reg15, i32 0, i32 0
  store i64 %sub, ptr %d16
  store i64 1, ptr %carry.addr
  br label %if.end18
if.else:
  %reg16 = load i64, ptr %s
  %reg17 = load ptr, ptr %r
  %d17 = getelementptr %struct.Digit, ptr %reg17, i32 0, i32 0
  store i64 %reg16, ptr %d17
  store i64 0, ptr %carry.addr
  br label %if.end18
if.end18:
  %reg18 = load ptr, ptr %a.addr
  %tobool19 = icmp ne ptr %reg18, null
  br i1 %tobool19, label %cond.true, label %cond.false
cond.true:
  %reg19 = load ptr, ptr %a.addr
  %next = getelementptr %struct.Digit, ptr %reg19, i32 0, i32 1
  %p$6 = bitcast ptr %next to ptr
  %o$7 = bitcast ptr %reg19 to ptr
  %w$8 = call ptr @llvm.gcread(ptr %o$7, ptr %p$6)
  %reg20 = bitcast ptr %w$8 to ptr
  br label %cond.end
cond.false:
  br label %cond.end
cond.end:
  %cond = phi ptr [ %reg20, %cond.true ], [ null, %cond.false ]
  %reg21 = load ptr, ptr %b.addr
  %tobool20 = icmp ne ptr %reg21, null
  br i1 %tobool20, label %cond.true21, label %cond.false23
cond.true21:
  %reg22 = load ptr, ptr %b.addr
  %next22 = getelementptr %struct.Digit, ptr %reg22, i32 0, i32 1
  %p$9 = bitcast ptr %next22 to ptr
  %o$10 = bitcast ptr %reg22 to ptr
  %w$11 = call ptr @llvm.gcread(ptr %o$10, ptr %p$9)
  %reg23 = bitcast ptr %w$11 to ptr
  br label %cond.end24
cond.false23:
  br label %cond.end24
cond.end24:
  %cond25 = phi ptr [ %reg23, %cond.true21 ], [ null, %cond.false23 ]
  %reg24 = load i64, ptr %carry.addr
  %call26 = call ptr @digits_add(ptr %cond, ptr %cond25, i64 %reg24)
  %reg25 = load ptr, ptr %r
  %next27 = getelementptr %struct.Digit, ptr %reg25, i32 0, i32 1
  store ptr %call26, ptr %next27
  %reg26 = load ptr, ptr %r
  store ptr %reg26, ptr %retval
  br label %return
return:
  %reg27 = load ptr, ptr %retval
  ret ptr %reg27
}
