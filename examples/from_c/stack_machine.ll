; ModuleID = 'stack_machine.c'
source_filename = "stack_machine.c"
target datalayout = "e-m:e-p270:32:32-p271:32:32-p272:64:64-i64:64-i128:128-f80:128-n8:16:32:64-S128"
target triple = "x86_64-unknown-linux-gnu"

; Function Attrs: nounwind uwtable
define dso_local range(i32 0, 2) i32 @main() local_unnamed_addr gc "statepoint-example" {
  br label %1

1:                                                ; preds = %44, %0
  %2 = phi ptr addrspace(1) [ null, %0 ], [ %45, %44 ]
  %3 = phi i32 [ 0, %0 ], [ %46, %44 ]
  %4 = tail call i64 @read_i64() #3
  %5 = icmp slt i64 %4, 0
  br i1 %5, label %44, label %6

6:                                                ; preds = %1
  %7 = icmp eq i64 %4, 0
  br i1 %7, label %8, label %10

8:                                                ; preds = %6
  %9 = tail call i64 @read_i64() #3
  br label %39

10:                                               ; preds = %6
  %11 = icmp eq ptr addrspace(1) %2, null
  br i1 %11, label %44, label %12

12:                                               ; preds = %10
  %13 = getelementptr inbounds nuw i8, ptr addrspace(1) %2, i64 8
  %14 = load ptr addrspace(1), ptr addrspace(1) %13, align 8, !tbaa !9
  %15 = icmp eq ptr addrspace(1) %14, null
  br i1 %15, label %44, label %16

16:                                               ; preds = %12
  %17 = getelementptr inbounds nuw i8, ptr addrspace(1) %14, i64 8
  %18 = load ptr addrspace(1), ptr addrspace(1) %17, align 8, !tbaa !9
  %19 = load i64, ptr addrspace(1) %14, align 8, !tbaa !14
  %20 = load i64, ptr addrspace(1) %2, align 8, !tbaa !14
  switch i64 %4, label %37 [
    i64 1, label %21
    i64 2, label %23
    i64 3, label %25
    i64 4, label %27
    i64 5, label %31
    i64 6, label %35
  ]

21:                                               ; preds = %16
  %22 = add nsw i64 %20, %19
  br label %39

23:                                               ; preds = %16
  %24 = sub nsw i64 %19, %20
  br label %39

25:                                               ; preds = %16
  %26 = mul nsw i64 %20, %19
  br label %39

27:                                               ; preds = %16
  %28 = icmp eq i64 %20, 0
  br i1 %28, label %39, label %29

29:                                               ; preds = %27
  %30 = sdiv i64 %19, %20
  br label %39

31:                                               ; preds = %16
  %32 = icmp eq i64 %20, 0
  br i1 %32, label %39, label %33

33:                                               ; preds = %31
  %34 = srem i64 %19, %20
  br label %39

35:                                               ; preds = %16
  %36 = tail call i64 @llvm.smin.i64(i64 %19, i64 %20)
  br label %39

37:                                               ; preds = %16
  %38 = xor i64 %20, %19
  br label %39

39:                                               ; preds = %37, %35, %33, %31, %29, %27, %25, %23, %21, %8
  %40 = phi i64 [ %9, %8 ], [ %38, %37 ], [ %22, %21 ], [ %24, %23 ], [ %26, %25 ], [ %36, %35 ], [ 0, %27 ], [ %30, %29 ], [ %34, %33 ], [ %19, %31 ]
  %41 = phi ptr addrspace(1) [ %2, %8 ], [ %18, %37 ], [ %18, %21 ], [ %18, %23 ], [ %18, %25 ], [ %18, %35 ], [ %18, %27 ], [ %18, %29 ], [ %18, %33 ], [ %18, %31 ]
  %42 = tail call noundef ptr addrspace(1) @gc_new.struct.Frame(i64 noundef 1) #3
  store i64 %40, ptr addrspace(1) %42, align 8, !tbaa !14
  %43 = getelementptr inbounds nuw i8, ptr addrspace(1) %42, i64 8
  store ptr addrspace(1) %41, ptr addrspace(1) %43, align 8, !tbaa !9
  br label %44

44:                                               ; preds = %39, %10, %12, %1
  %45 = phi ptr addrspace(1) [ %2, %1 ], [ null, %10 ], [ %2, %12 ], [ %42, %39 ]
  %46 = phi i32 [ %3, %1 ], [ 1, %10 ], [ 1, %12 ], [ %3, %39 ]
  %47 = phi i32 [ 2, %1 ], [ 1, %10 ], [ 1, %12 ], [ 0, %39 ]
  switch i32 %47, label %56 [
    i32 0, label %1
    i32 2, label %48
  ], !llvm.loop !15

48:                                               ; preds = %44
  %49 = icmp eq ptr addrspace(1) %45, null
  br i1 %49, label %56, label %50

50:                                               ; preds = %48, %50
  %51 = phi ptr addrspace(1) [ %54, %50 ], [ %45, %48 ]
  %52 = load i64, ptr addrspace(1) %51, align 8, !tbaa !14
  tail call void @print_i64(i64 noundef %52) #3
  %53 = getelementptr inbounds nuw i8, ptr addrspace(1) %51, i64 8
  %54 = load ptr addrspace(1), ptr addrspace(1) %53, align 8, !tbaa !9
  %55 = icmp eq ptr addrspace(1) %54, null
  br i1 %55, label %56, label %50, !llvm.loop !17

56:                                               ; preds = %44, %50, %48
  %57 = phi i32 [ 0, %48 ], [ 0, %50 ], [ %46, %44 ]
  ret i32 %57
}

declare i64 @read_i64() local_unnamed_addr #1

declare void @print_i64(i64 noundef) local_unnamed_addr #1

declare ptr addrspace(1) @gc_new.struct.Frame(i64 noundef) local_unnamed_addr #1

; Function Attrs: nocallback nocreateundeforpoison nofree nosync nounwind speculatable willreturn memory(none)
declare i64 @llvm.smin.i64(i64, i64) #2

attributes #0 = { nounwind uwtable "min-legal-vector-width"="0" "no-trapping-math"="true" "stack-protector-buffer-size"="8" "target-cpu"="x86-64" "target-features"="+cmov,+cx8,+fxsr,+mmx,+sse,+sse2,+x87" "tune-cpu"="generic" }
attributes #1 = { "no-trapping-math"="true" "stack-protector-buffer-size"="8" "target-cpu"="x86-64" "target-features"="+cmov,+cx8,+fxsr,+mmx,+sse,+sse2,+x87" "tune-cpu"="generic" }
attributes #2 = { nocallback nocreateundeforpoison nofree nosync nounwind speculatable willreturn memory(none) }
attributes #3 = { nounwind }

!llvm.module.flags = !{!0, !1, !2, !3}
!llvm.ident = !{!4}
!llvm.errno.tbaa = !{!5}

!0 = !{i32 1, !"wchar_size", i32 4}
!1 = !{i32 8, !"PIC Level", i32 2}
!2 = !{i32 7, !"PIE Level", i32 2}
!3 = !{i32 7, !"uwtable", i32 2}
!4 = !{!"clang version 22.1.8"}
!5 = !{!6, !6, i64 0}
!6 = !{!"int", !7, i64 0}
!7 = !{!"omnipotent char", !8, i64 0}
!8 = !{!"Simple C/C++ TBAA"}
!9 = !{!10, !12, i64 8}
!10 = !{!"Frame", !11, i64 0, !12, i64 8}
!11 = !{!"long", !7, i64 0}
!12 = !{!"p1 _ZTS5Frame", !13, i64 0}
!13 = !{!"any pointer", !7, i64 0}
!14 = !{!10, !11, i64 0}
!15 = distinct !{!15, !16}
!16 = !{!"llvm.loop.unroll.disable"}
!17 = distinct !{!17, !18, !16}
!18 = !{!"llvm.loop.mustprogress"}
