; A module as the kit writes it, with all that mark.awk lets pass: locals that are filled with zeros before they are used, a result that the
; callee puts in a place of its caller's and one that is two numbers, marks in a local that is lent to another function, a reference kept in
; a local and one kept two deep, a pointer that is returned, slots copied to a local, numbers beside pointers. `test` makes it wrong.
source_filename = "rattle"
target datalayout = "e-m:e-p270:32:32-p271:32:32-p272:64:64-i64:64-i128:128-f80:128-n8:16:32:64-S128"
target triple = "x86_64-unknown-linux-gnu"

; Function Attrs: nounwind
define internal void @"table::store::store_word"(ptr noundef %a0, i64 noundef %a1, i64 noundef %a2, i64 noundef %a3) #0 {
start:
  %r0 = alloca [16 x i8], align 8
  call void @llvm.memset.p0.i64(ptr %r0, i8 0, i64 16, i1 false)
  store ptr %a0, ptr %r0, align 8
  %r1 = getelementptr i8, ptr %r0, i64 8
  store i64 %a1, ptr %r1, align 8
  %r2 = alloca i64, align 8
  %r3 = alloca ptr, align 8
  %r4 = mul i64 %a2, 8
  store i64 %r4, ptr %r2, align 8
  %r5 = load ptr, ptr %r0, align 8, !noundef !1
  %r6 = load i64, ptr %r2, align 8, !noundef !1
  %r7 = getelementptr inbounds nuw i8, ptr %r5, i64 %r6
  store ptr %r7, ptr %r3, align 8
  %r8 = load ptr, ptr %r3, align 8, !noundef !1
  store i64 %a3, ptr %r8, align 8
  ret void
}

; an entry: its kind and its page number, as two numbers
define internal { i8, i64 } @"table::word::decode"(i64 noundef %a0) #0 {
start:
  %r0 = alloca [16 x i8], align 8
  call void @llvm.memset.p0.i64(ptr %r0, i8 0, i64 16, i1 false)
  %r1 = trunc i64 %a0 to i8
  store i8 %r1, ptr %r0, align 8
  %r2 = getelementptr i8, ptr %r0, i64 8
  store i64 %a0, ptr %r2, align 8
  %r3 = load { i8, i64 }, ptr %r0, align 8
  ret { i8, i64 } %r3
}

; the sum of two words of the slots, in the place of the caller's
define internal void @"slots::sum"(ptr noundef %a0, ptr noundef %a1) #0 {
start:
  %r0 = alloca [16 x i8], align 8
  %r1 = alloca [64 x i8], align 8
  call void @llvm.memset.p0.i64(ptr %r1, i8 0, i64 64, i1 false)
  call void @llvm.memmove.p0.p0.i64(ptr %r1, ptr %a1, i64 64, i1 false)
  call void @llvm.memset.p0.i64(ptr %r0, i8 0, i64 16, i1 false)
  %r2 = getelementptr i8, ptr %r1, i64 8
  %r3 = load i64, ptr %r1, align 8, !noundef !1
  %r4 = load i64, ptr %r2, align 8, !noundef !1
  %r5 = add i64 %r3, %r4
  store i64 %r5, ptr %r0, align 8
  call void @llvm.memmove.p0.p0.i64(ptr %a0, ptr %r0, i64 16, i1 false)
  ret void
}

; one mark of those that it is lent
define internal noundef zeroext i1 @"sound::claim"(i64 noundef %a0, ptr noundef %a1) #0 {
start:
  %r0 = alloca ptr, align 8
  %r1 = getelementptr inbounds nuw i8, ptr %a1, i64 %a0
  store ptr %r1, ptr %r0, align 8
  %r2 = load ptr, ptr %r0, align 8, !noundef !1
  %r3 = load i8, ptr %r2, align 1, !range !2, !noundef !1
  %r4 = trunc i8 %r3 to i1
  br i1 %r4, label %then.1, label %else.2

then.1:                                           ; preds = %start
  ret i1 false

else.2:                                           ; preds = %start
  %r5 = zext i1 true to i8
  store i8 %r5, ptr %r2, align 1
  ret i1 true
}

; no mark
define internal void @"sound::none"(ptr noundef %a0) #0 {
start:
  %r0 = alloca [256 x i8], align 1
  call void @llvm.memset.p0.i64(ptr %r0, i8 0, i64 256, i1 false)
  call void @llvm.memmove.p0.p0.i64(ptr %a0, ptr %r0, i64 256, i1 false)
  ret void
}

; keeps the second pointer in the place that the first leads to
define internal void @"table::keep"(ptr noundef %a0, ptr noundef %a1) #0 {
start:
  store ptr %a1, ptr %a0, align 8
  ret void
}

; of two pointers, the first
define internal noundef ptr @"table::first"(ptr noundef %a0, ptr noundef %a1) #0 {
start:
  ret ptr %a0
}

; the word that a pointer leads to, which is kept two deep
define internal noundef i64 @"table::deep"(ptr noundef %a0) #0 {
start:
  %r0 = load ptr, ptr %a0, align 8, !noundef !1
  %r1 = load ptr, ptr %r0, align 8, !noundef !1
  %r2 = load i64, ptr %r1, align 8, !noundef !1
  ret i64 %r2
}

define internal noundef i64 @"api::mpt_edit"(ptr noundef %a0, i64 noundef %a1, ptr noundef %a2, i64 noundef %a3) #0 {
start:
  %r0 = alloca [16 x i8], align 8
  %r1 = alloca [256 x i8], align 1
  %r2 = alloca ptr, align 8
  %r3 = alloca ptr, align 8
  %r4 = alloca ptr, align 8
  %r5 = alloca i64, align 8
  call void @llvm.memset.p0.i64(ptr %r0, i8 0, i64 16, i1 false)
  call void @llvm.memset.p0.i64(ptr %r1, i8 0, i64 256, i1 false)
  call void @"sound::none"(ptr %r1)
  store ptr %r1, ptr %r2, align 8
  %r6 = load ptr, ptr %r2, align 8, !noundef !1
  %r7 = call i1 @"sound::claim"(i64 %a3, ptr %r6)
  br i1 %r7, label %then.1, label %else.2

then.1:                                           ; preds = %start
  call void @"slots::sum"(ptr %r0, ptr %a2)
  %r8 = load i64, ptr %r0, align 8, !noundef !1
  switch i64 %r8, label %else.2 [
    i64 0, label %arm.3
    i64 1, label %arm.4
  ]

else.2:                                           ; preds = %then.1, %start
  call void @llvm.trap()
  unreachable

arm.3:                                            ; preds = %then.1
  call void @"table::store::store_word"(ptr %a0, i64 %a1, i64 %a3, i64 %r8)
  ret i64 256

arm.4:                                            ; preds = %then.1
  call void @"table::keep"(ptr %r3, ptr %a0)
  store ptr %r3, ptr %r4, align 8
  %r9 = call i64 @"table::deep"(ptr %r4)
  %r10 = call ptr @"table::first"(ptr %r5, ptr %r0)
  store i64 %r9, ptr %r10, align 8
  %r11 = load i64, ptr %r5, align 8, !noundef !1
  %r12 = call { i8, i64 } @"table::word::decode"(i64 %r11)
  %r13 = extractvalue { i8, i64 } %r12, 0
  %r14 = extractvalue { i8, i64 } %r12, 1
  %r15 = zext i8 %r13 to i64
  %r16 = add i64 %r14, %r15
  ret i64 %r16
}

define internal noundef i64 @"api_c::mpt_edit"(ptr noundef %a0, i64 noundef %a1, ptr noundef %a2, i64 noundef %a3) #0 {
start:
  %r0 = alloca [16 x i8], align 8
  call void @llvm.memset.p0.i64(ptr %r0, i8 0, i64 16, i1 false)
  store ptr %a0, ptr %r0, align 8
  %r1 = getelementptr i8, ptr %r0, i64 8
  store i64 %a1, ptr %r1, align 8
  %r2 = load ptr, ptr %r0, align 8, !noundef !1
  %r3 = call i64 @"api::mpt_edit"(ptr %r2, i64 %a1, ptr %a2, i64 %a3)
  ret i64 %r3
}

; Function Attrs: nounwind
define noundef i64 @mpt_edit(ptr noundef %a0, i64 noundef %a1, ptr noundef %a2, i64 noundef %a3) #0 {
start:
  %r0 = alloca [16 x i8], align 8
  %r1 = icmp eq ptr %a0, null
  %r2 = zext i1 %r1 to i64
  %r3 = mul i64 %r2, 4096
  %r4 = getelementptr i8, ptr %a0, i64 %r3
  store ptr %r4, ptr %r0, align 8
  %r5 = getelementptr i8, ptr %r0, i64 8
  store i64 %a1, ptr %r5, align 8
  %r6 = load ptr, ptr %r0, align 1
  %r7 = load i64, ptr %r5, align 1
  %r8 = call i64 @"api_c::mpt_edit"(ptr %r6, i64 %r7, ptr %a2, i64 %a3)
  ret i64 %r8
}

; Function Attrs: nocallback nofree nounwind willreturn memory(argmem: readwrite)
declare void @llvm.memmove.p0.p0.i64(ptr writeonly captures(none), ptr readonly captures(none), i64, i1 immarg) #1

; Function Attrs: cold noreturn nounwind memory(inaccessiblemem: write)
declare void @llvm.trap() #2

; Function Attrs: nocallback nofree nounwind willreturn memory(argmem: write)
declare void @llvm.memset.p0.i64(ptr writeonly captures(none), i8, i64, i1 immarg) #3

attributes #0 = { nounwind "probe-stack"="inline-asm" "stack-probe-size"="3072" "target-cpu"="x86-64" }
attributes #1 = { nocallback nofree nounwind willreturn memory(argmem: readwrite) }
attributes #2 = { cold noreturn nounwind memory(inaccessiblemem: write) }
attributes #3 = { nocallback nofree nounwind willreturn memory(argmem: write) }

!llvm.ident = !{!0}

!0 = !{!"rattle logic=0"}
!1 = !{}
!2 = !{i8 0, i8 2}
