; ModuleID = 'arrays.c'
source_filename = "arrays.c"
target datalayout = "e-m:e-p270:32:32-p271:32:32-p272:64:64-i64:64-i128:128-f80:128-n8:16:32:64-S128"
target triple = "x86_64-unknown-linux-gnu"

%struct.Number = type { i64 }

; Function Attrs: nounwind uwtable
define dso_local noundef i32 @main() local_unnamed_addr gc "statepoint-example" {
  %1 = tail call i64 @read_i64() #2
  %2 = tail call ptr addrspace(1) @gc_new.struct.Number(i64 noundef %1) #2
  %3 = icmp sgt i64 %1, 0
  br i1 %3, label %35, label %4

4:                                                ; preds = %35, %0
  %5 = icmp sgt i64 %1, 1
  br i1 %5, label %6, label %18

6:                                                ; preds = %4
  %7 = add nsw i64 %1, -1
  br label %8

8:                                                ; preds = %8, %6
  %9 = phi i64 [ %16, %8 ], [ %7, %6 ]
  %10 = phi i64 [ %15, %8 ], [ 0, %6 ]
  %11 = getelementptr inbounds nuw %struct.Number, ptr addrspace(1) %2, i64 %10
  %12 = load i64, ptr addrspace(1) %11, align 8, !tbaa !9
  %13 = getelementptr inbounds %struct.Number, ptr addrspace(1) %2, i64 %9
  %14 = load i64, ptr addrspace(1) %13, align 8, !tbaa !9
  store i64 %14, ptr addrspace(1) %11, align 8, !tbaa !9
  store i64 %12, ptr addrspace(1) %13, align 8, !tbaa !9
  %15 = add nuw nsw i64 %10, 1
  %16 = add nsw i64 %9, -1
  %17 = icmp slt i64 %15, %16
  br i1 %17, label %8, label %18, !llvm.loop !12

18:                                               ; preds = %8, %4
  %19 = add nsw i64 %1, 1
  %20 = tail call ptr addrspace(1) @gc_new.struct.Number(i64 noundef %19) #2
  %21 = icmp sgt i64 %1, 0
  br i1 %21, label %22, label %33

22:                                               ; preds = %18
  %23 = load i64, ptr addrspace(1) %20, align 8
  br label %24

24:                                               ; preds = %22, %24
  %25 = phi i64 [ %23, %22 ], [ %29, %24 ]
  %26 = phi i64 [ 0, %22 ], [ %30, %24 ]
  %27 = getelementptr inbounds nuw %struct.Number, ptr addrspace(1) %2, i64 %26
  %28 = load i64, ptr addrspace(1) %27, align 8, !tbaa !9
  %29 = add nsw i64 %28, %25
  %30 = add nuw nsw i64 %26, 1
  %31 = getelementptr inbounds nuw %struct.Number, ptr addrspace(1) %20, i64 %30
  store i64 %29, ptr addrspace(1) %31, align 8, !tbaa !9
  %32 = icmp eq i64 %30, %1
  br i1 %32, label %33, label %24, !llvm.loop !15

33:                                               ; preds = %24, %18
  %34 = icmp slt i64 %1, 0
  br i1 %34, label %41, label %42

35:                                               ; preds = %0, %35
  %36 = phi i64 [ %39, %35 ], [ 0, %0 ]
  %37 = tail call i64 @read_i64() #2
  %38 = getelementptr inbounds nuw %struct.Number, ptr addrspace(1) %2, i64 %36
  store i64 %37, ptr addrspace(1) %38, align 8, !tbaa !9
  %39 = add nuw nsw i64 %36, 1
  %40 = icmp eq i64 %39, %1
  br i1 %40, label %4, label %35, !llvm.loop !16

41:                                               ; preds = %42, %33
  ret i32 0

42:                                               ; preds = %33, %42
  %43 = phi i64 [ %46, %42 ], [ 0, %33 ]
  %44 = getelementptr inbounds nuw %struct.Number, ptr addrspace(1) %20, i64 %43
  %45 = load i64, ptr addrspace(1) %44, align 8, !tbaa !9
  tail call void @print_i64(i64 noundef %45) #2
  %46 = add nuw i64 %43, 1
  %47 = icmp eq i64 %43, %1
  br i1 %47, label %41, label %42, !llvm.loop !17
}

declare i64 @read_i64() local_unnamed_addr #1

declare ptr addrspace(1) @gc_new.struct.Number(i64 noundef) local_unnamed_addr #1

declare void @print_i64(i64 noundef) local_unnamed_addr #1

attributes #0 = { nounwind uwtable "min-legal-vector-width"="0" "no-trapping-math"="true" "stack-protector-buffer-size"="8" "target-cpu"="x86-64" "target-features"="+cmov,+cx8,+fxsr,+mmx,+sse,+sse2,+x87" "tune-cpu"="generic" }
attributes #1 = { "no-trapping-math"="true" "stack-protector-buffer-size"="8" "target-cpu"="x86-64" "target-features"="+cmov,+cx8,+fxsr,+mmx,+sse,+sse2,+x87" "tune-cpu"="generic" }
attributes #2 = { nounwind }

!llvm.module.flags = !{!0, !1, !2, !3}
!llvm.ident = !{!4}
!llvm.errno.tbaa = !{!5}

!0 = !{i32 1, !"wchar_size", i32 4}
!1 = !{i32 8, !"PIC Level", i32 2}
!2 = !{i32 7, !"PIE Level", i32 2}
!3 = !{i32 7, !"uwtable", i32 2}
!4 = !{!"clang version 22.1.8"}
!5 = !{!6, !6, i64 0}
!6 = !{!"int", !7, i64 0}
!7 = !{!"omnipotent char", !8, i64 0}
!8 = !{!"Simple C/C++ TBAA"}
!9 = !{!10, !11, i64 0}
!10 = !{!"Number", !11, i64 0}
!11 = !{!"long", !7, i64 0}
!12 = distinct !{!12, !13, !14}
!13 = !{!"llvm.loop.mustprogress"}
!14 = !{!"llvm.loop.unroll.disable"}
!15 = distinct !{!15, !13, !14}
!16 = distinct !{!16, !13, !14}
!17 = distinct !{!17, !13, !14}
