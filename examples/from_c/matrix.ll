; ModuleID = 'matrix.c'
source_filename = "matrix.c"
target datalayout = "e-m:e-p270:32:32-p271:32:32-p272:64:64-i64:64-i128:128-f80:128-n8:16:32:64-S128"
target triple = "x86_64-unknown-linux-gnu"

%struct.Number = type { i64 }

; Function Attrs: nounwind uwtable
define dso_local noundef i32 @main() local_unnamed_addr gc "statepoint-example" {
  %1 = tail call i64 @read_i64() #2
  %2 = mul nsw i64 %1, %1
  %3 = tail call ptr addrspace(1) @gc_new.struct.Number(i64 noundef %2) #2
  %4 = icmp eq i64 %1, 0
  br i1 %4, label %5, label %10

5:                                                ; preds = %10, %0
  %6 = tail call i64 @read_i64() #2
  %7 = icmp sgt i64 %6, 1
  br i1 %7, label %8, label %16

8:                                                ; preds = %5
  %9 = icmp sgt i64 %1, 0
  br label %19

10:                                               ; preds = %0, %10
  %11 = phi i64 [ %14, %10 ], [ 0, %0 ]
  %12 = tail call i64 @read_i64() #2
  %13 = getelementptr inbounds nuw %struct.Number, ptr addrspace(1) %3, i64 %11
  store i64 %12, ptr addrspace(1) %13, align 8, !tbaa !9
  %14 = add nuw i64 %11, 1
  %15 = icmp eq i64 %14, %2
  br i1 %15, label %5, label %10, !llvm.loop !12

16:                                               ; preds = %50, %5
  %17 = phi ptr addrspace(1) [ %3, %5 ], [ %22, %50 ]
  %18 = icmp eq i64 %1, 0
  br i1 %18, label %53, label %54

19:                                               ; preds = %8, %50
  %20 = phi i64 [ %6, %8 ], [ %51, %50 ]
  %21 = phi ptr addrspace(1) [ %3, %8 ], [ %22, %50 ]
  %22 = tail call ptr addrspace(1) @gc_new.struct.Number(i64 noundef %2) #2
  br i1 %9, label %23, label %50

23:                                               ; preds = %19, %31
  %24 = phi i64 [ %32, %31 ], [ 0, %19 ]
  %25 = mul nuw nsw i64 %24, %1
  %26 = getelementptr %struct.Number, ptr addrspace(1) %21, i64 %25
  %27 = getelementptr %struct.Number, ptr addrspace(1) %22, i64 %25
  br label %28

28:                                               ; preds = %34, %23
  %29 = phi i64 [ 0, %23 ], [ %36, %34 ]
  %30 = getelementptr %struct.Number, ptr addrspace(1) %3, i64 %29
  br label %38

31:                                               ; preds = %34
  %32 = add nuw nsw i64 %24, 1
  %33 = icmp eq i64 %32, %1
  br i1 %33, label %50, label %23, !llvm.loop !15

34:                                               ; preds = %38
  %35 = getelementptr %struct.Number, ptr addrspace(1) %27, i64 %29
  store i64 %47, ptr addrspace(1) %35, align 8, !tbaa !9
  %36 = add nuw nsw i64 %29, 1
  %37 = icmp eq i64 %36, %1
  br i1 %37, label %31, label %28, !llvm.loop !16

38:                                               ; preds = %38, %28
  %39 = phi i64 [ 0, %28 ], [ %48, %38 ]
  %40 = phi i64 [ 0, %28 ], [ %47, %38 ]
  %41 = getelementptr %struct.Number, ptr addrspace(1) %26, i64 %39
  %42 = load i64, ptr addrspace(1) %41, align 8, !tbaa !9
  %43 = mul nuw nsw i64 %39, %1
  %44 = getelementptr %struct.Number, ptr addrspace(1) %30, i64 %43
  %45 = load i64, ptr addrspace(1) %44, align 8, !tbaa !9
  %46 = mul nsw i64 %45, %42
  %47 = add nsw i64 %46, %40
  %48 = add nuw nsw i64 %39, 1
  %49 = icmp eq i64 %48, %1
  br i1 %49, label %34, label %38, !llvm.loop !17

50:                                               ; preds = %31, %19
  %51 = add nsw i64 %20, -1
  %52 = icmp sgt i64 %20, 2
  br i1 %52, label %19, label %16, !llvm.loop !18

53:                                               ; preds = %54, %16
  ret i32 0

54:                                               ; preds = %16, %54
  %55 = phi i64 [ %58, %54 ], [ 0, %16 ]
  %56 = getelementptr inbounds nuw %struct.Number, ptr addrspace(1) %17, i64 %55
  %57 = load i64, ptr addrspace(1) %56, align 8, !tbaa !9
  tail call void @print_i64(i64 noundef %57) #2
  %58 = add nuw i64 %55, 1
  %59 = icmp eq i64 %58, %2
  br i1 %59, label %53, label %54, !llvm.loop !19
}

declare i64 @read_i64() local_unnamed_addr #1

declare ptr addrspace(1) @gc_new.struct.Number(i64 noundef) local_unnamed_addr #1

declare void @print_i64(i64 noundef) local_unnamed_addr #1

attributes #0 = { nounwind uwtable "min-legal-vector-width"="0" "no-trapping-math"="true" "stack-protector-buffer-size"="8" "target-cpu"="x86-64" "target-features"="+cmov,+cx8,+fxsr,+mmx,+sse,+sse2,+x87" "tune-cpu"="generic" }
attributes #1 = { "no-trapping-math"="true" "stack-protector-buffer-size"="8" "target-cpu"="x86-64" "target-features"="+cmov,+cx8,+fxsr,+mmx,+sse,+sse2,+x87" "tune-cpu"="generic" }
attributes #2 = { nounwind }

!llvm.module.flags = !{!0, !1, !2, !3}
!llvm.ident = !{!4}
!llvm.errno.tbaa = !{!5}

!0 = !{i32 1, !"wchar_size", i32 4}
!1 = !{i32 8, !"PIC Level", i32 2}
!2 = !{i32 7, !"PIE Level", i32 2}
!3 = !{i32 7, !"uwtable", i32 2}
!4 = !{!"clang version 22.1.8"}
!5 = !{!6, !6, i64 0}
!6 = !{!"int", !7, i64 0}
!7 = !{!"omnipotent char", !8, i64 0}
!8 = !{!"Simple C/C++ TBAA"}
!9 = !{!10, !11, i64 0}
!10 = !{!"Number", !11, i64 0}
!11 = !{!"long", !7, i64 0}
!12 = distinct !{!12, !13, !14}
!13 = !{!"llvm.loop.mustprogress"}
!14 = !{!"llvm.loop.unroll.disable"}
!15 = distinct !{!15, !13, !14}
!16 = distinct !{!16, !13, !14}
!17 = distinct !{!17, !13, !14}
!18 = distinct !{!18, !13, !14}
!19 = distinct !{!19, !13, !14}
