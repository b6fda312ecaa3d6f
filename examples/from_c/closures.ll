; ModuleID = 'closures.c'
source_filename = "closures.c"
target datalayout = "e-m:e-p270:32:32-p271:32:32-p272:64:64-i64:64-i128:128-f80:128-n8:16:32:64-S128"
target triple = "x86_64-unknown-linux-gnu"

; Function Attrs: nounwind uwtable
define dso_local noundef i32 @main() local_unnamed_addr gc "statepoint-example" {
  %1 = tail call i64 @read_i64() #4
  %2 = tail call fastcc ptr addrspace(1) @make(i64 noundef 0, i64 noundef %1, ptr addrspace(1) noundef null, ptr addrspace(1) noundef null)
  %3 = tail call i64 @read_i64() #4
  %4 = tail call fastcc ptr addrspace(1) @make(i64 noundef 1, i64 noundef %3, ptr addrspace(1) noundef null, ptr addrspace(1) noundef null)
  %5 = tail call fastcc ptr addrspace(1) @make(i64 noundef 2, i64 noundef 0, ptr addrspace(1) noundef %2, ptr addrspace(1) noundef %4)
  %6 = tail call fastcc ptr addrspace(1) @make(i64 noundef 3, i64 noundef 0, ptr addrspace(1) noundef %5, ptr addrspace(1) noundef null)
  %7 = tail call fastcc i64 @apply(ptr addrspace(1) noundef %5, i64 noundef 10)
  tail call void @print_i64(i64 noundef %7) #4
  %8 = tail call fastcc i64 @apply(ptr addrspace(1) noundef %6, i64 noundef 10)
  tail call void @print_i64(i64 noundef %8) #4
  %9 = tail call fastcc ptr addrspace(1) @make(i64 noundef 2, i64 noundef 0, ptr addrspace(1) noundef %6, ptr addrspace(1) noundef %2)
  %10 = tail call fastcc i64 @apply(ptr addrspace(1) noundef %9, i64 noundef 1)
  tail call void @print_i64(i64 noundef %10) #4
  ret i32 0
}

; Function Attrs: noinline nounwind uwtable
define internal fastcc noundef ptr addrspace(1) @make(i64 noundef range(i64 0, 4) %0, i64 noundef %1, ptr addrspace(1) noundef %2, ptr addrspace(1) noundef %3) unnamed_addr gc "statepoint-example" {
  %5 = tail call ptr addrspace(1) @gc_new.struct.Closure(i64 noundef 1) #4
  store i64 %0, ptr addrspace(1) %5, align 8, !tbaa !9
  %6 = getelementptr inbounds nuw i8, ptr addrspace(1) %5, i64 8
  store i64 %1, ptr addrspace(1) %6, align 8, !tbaa !14
  %7 = getelementptr inbounds nuw i8, ptr addrspace(1) %5, i64 16
  store ptr addrspace(1) %2, ptr addrspace(1) %7, align 8, !tbaa !15
  %8 = getelementptr inbounds nuw i8, ptr addrspace(1) %5, i64 24
  store ptr addrspace(1) %3, ptr addrspace(1) %8, align 8, !tbaa !16
  ret ptr addrspace(1) %5
}

declare i64 @read_i64() local_unnamed_addr #2

declare void @print_i64(i64 noundef) local_unnamed_addr #2

; Function Attrs: nofree nosync nounwind memory(read, inaccessiblemem: none, target_mem0: none, target_mem1: none) uwtable
define internal fastcc i64 @apply(ptr addrspace(1) noundef readonly captures(none) %0, i64 noundef %1) unnamed_addr gc "statepoint-example" {
  br label %3

3:                                                ; preds = %21, %15, %2
  %4 = phi ptr addrspace(1) [ %0, %2 ], [ %17, %15 ], [ %23, %21 ]
  %5 = phi i64 [ %1, %2 ], [ %20, %15 ], [ %24, %21 ]
  %6 = load i64, ptr addrspace(1) %4, align 8, !tbaa !9
  switch i64 %6, label %25 [
    i64 0, label %7
    i64 1, label %11
    i64 2, label %15
    i64 3, label %21
  ]

7:                                                ; preds = %3
  %8 = getelementptr inbounds nuw i8, ptr addrspace(1) %4, i64 8
  %9 = load i64, ptr addrspace(1) %8, align 8, !tbaa !14
  %10 = add nsw i64 %9, %5
  br label %26

11:                                               ; preds = %3
  %12 = getelementptr inbounds nuw i8, ptr addrspace(1) %4, i64 8
  %13 = load i64, ptr addrspace(1) %12, align 8, !tbaa !14
  %14 = mul nsw i64 %13, %5
  br label %26

15:                                               ; preds = %3
  %16 = getelementptr inbounds nuw i8, ptr addrspace(1) %4, i64 16
  %17 = load ptr addrspace(1), ptr addrspace(1) %16, align 8, !tbaa !15
  %18 = getelementptr inbounds nuw i8, ptr addrspace(1) %4, i64 24
  %19 = load ptr addrspace(1), ptr addrspace(1) %18, align 8, !tbaa !16
  %20 = tail call fastcc i64 @apply(ptr addrspace(1) noundef %19, i64 noundef %5)
  br label %3

21:                                               ; preds = %3
  %22 = getelementptr inbounds nuw i8, ptr addrspace(1) %4, i64 16
  %23 = load ptr addrspace(1), ptr addrspace(1) %22, align 8, !tbaa !15
  %24 = tail call fastcc i64 @apply(ptr addrspace(1) noundef %23, i64 noundef %5)
  br label %3

25:                                               ; preds = %3
  unreachable

26:                                               ; preds = %11, %7
  %27 = phi i64 [ %10, %7 ], [ %14, %11 ]
  ret i64 %27
}

declare ptr addrspace(1) @gc_new.struct.Closure(i64 noundef) local_unnamed_addr #2

attributes #0 = { nounwind uwtable "min-legal-vector-width"="0" "no-trapping-math"="true" "stack-protector-buffer-size"="8" "target-cpu"="x86-64" "target-features"="+cmov,+cx8,+fxsr,+mmx,+sse,+sse2,+x87" "tune-cpu"="generic" }
attributes #1 = { noinline nounwind uwtable "min-legal-vector-width"="0" "no-trapping-math"="true" "stack-protector-buffer-size"="8" "target-cpu"="x86-64" "target-features"="+cmov,+cx8,+fxsr,+mmx,+sse,+sse2,+x87" "tune-cpu"="generic" }
attributes #2 = { "no-trapping-math"="true" "stack-protector-buffer-size"="8" "target-cpu"="x86-64" "target-features"="+cmov,+cx8,+fxsr,+mmx,+sse,+sse2,+x87" "tune-cpu"="generic" }
attributes #3 = { nofree nosync nounwind memory(read, inaccessiblemem: none, target_mem0: none, target_mem1: none) uwtable "min-legal-vector-width"="0" "no-trapping-math"="true" "stack-protector-buffer-size"="8" "target-cpu"="x86-64" "target-features"="+cmov,+cx8,+fxsr,+mmx,+sse,+sse2,+x87" "tune-cpu"="generic" }
attributes #4 = { nounwind }

!llvm.module.flags = !{!0, !1, !2, !3}
!llvm.ident = !{!4}
!llvm.errno.tbaa = !{!5}

!0 = !{i32 1, !"wchar_size", i32 4}
!1 = !{i32 8, !"PIC Level", i32 2}
!2 = !{i32 7, !"PIE Level", i32 2}
!3 = !{i32 7, !"uwtable", i32 2}
!4 = !{!"clang version 22.1.8"}
!5 = !{!6, !6, i64 0}
!6 = !{!"int", !7, i64 0}
!7 = !{!"omnipotent char", !8, i64 0}
!8 = !{!"Simple C/C++ TBAA"}
!9 = !{!10, !11, i64 0}
!10 = !{!"Closure", !11, i64 0, !11, i64 8, !12, i64 16, !12, i64 24}
!11 = !{!"long", !7, i64 0}
!12 = !{!"p1 _ZTS7Closure", !13, i64 0}
!13 = !{!"any pointer", !7, i64 0}
!14 = !{!10, !11, i64 8}
!15 = !{!10, !12, i64 16}
!16 = !{!10, !12, i64 24}
