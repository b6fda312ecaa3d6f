; ModuleID = 'graph.c'
source_filename = "graph.c"
target datalayout = "e-m:e-p270:32:32-p271:32:32-p272:64:64-i64:64-i128:128-f80:128-n8:16:32:64-S128"
target triple = "x86_64-unknown-linux-gnu"

%struct.Place = type { ptr addrspace(1) }

; Function Attrs: nounwind uwtable
define dso_local noundef i32 @main() local_unnamed_addr gc "statepoint-example" {
  %1 = tail call i64 @read_i64() #2
  %2 = tail call ptr addrspace(1) @gc_new.struct.Place(i64 noundef %1) #2
  %3 = icmp sgt i64 %1, 0
  br i1 %3, label %7, label %4

4:                                                ; preds = %7, %0
  %5 = tail call i64 @read_i64() #2
  %6 = icmp sgt i64 %5, -1
  br i1 %6, label %13, label %26

7:                                                ; preds = %0, %7
  %8 = phi i64 [ %11, %7 ], [ 0, %0 ]
  %9 = tail call ptr addrspace(1) @gc_new.struct.Node(i64 noundef 1) #2
  store i64 -1, ptr addrspace(1) %9, align 8, !tbaa !9
  %10 = getelementptr inbounds nuw %struct.Place, ptr addrspace(1) %2, i64 %8
  store ptr addrspace(1) %9, ptr addrspace(1) %10, align 8, !tbaa !15
  %11 = add nuw nsw i64 %8, 1
  %12 = icmp eq i64 %11, %1
  br i1 %12, label %4, label %7, !llvm.loop !17

13:                                               ; preds = %4, %13
  %14 = phi i64 [ %24, %13 ], [ %5, %4 ]
  %15 = tail call i64 @read_i64() #2
  %16 = tail call ptr addrspace(1) @gc_new.struct.Edge(i64 noundef 1) #2
  %17 = getelementptr inbounds %struct.Place, ptr addrspace(1) %2, i64 %15
  %18 = load ptr addrspace(1), ptr addrspace(1) %17, align 8, !tbaa !15
  store ptr addrspace(1) %18, ptr addrspace(1) %16, align 8, !tbaa !20
  %19 = getelementptr inbounds nuw %struct.Place, ptr addrspace(1) %2, i64 %14
  %20 = load ptr addrspace(1), ptr addrspace(1) %19, align 8, !tbaa !15
  %21 = getelementptr inbounds nuw i8, ptr addrspace(1) %20, i64 8
  %22 = load ptr addrspace(1), ptr addrspace(1) %21, align 8, !tbaa !22
  %23 = getelementptr inbounds nuw i8, ptr addrspace(1) %16, i64 8
  store ptr addrspace(1) %22, ptr addrspace(1) %23, align 8, !tbaa !23
  store ptr addrspace(1) %16, ptr addrspace(1) %21, align 8, !tbaa !22
  %24 = tail call i64 @read_i64() #2
  %25 = icmp sgt i64 %24, -1
  br i1 %25, label %13, label %26

26:                                               ; preds = %13, %4
  %27 = load ptr addrspace(1), ptr addrspace(1) %2, align 8, !tbaa !15
  store i64 0, ptr addrspace(1) %27, align 8, !tbaa !9
  %28 = icmp eq ptr addrspace(1) %27, null
  br i1 %28, label %55, label %29

29:                                               ; preds = %26, %35
  %30 = phi ptr addrspace(1) [ %38, %35 ], [ %27, %26 ]
  %31 = phi ptr addrspace(1) [ %36, %35 ], [ %27, %26 ]
  %32 = getelementptr inbounds nuw i8, ptr addrspace(1) %30, i64 8
  %33 = load ptr addrspace(1), ptr addrspace(1) %32, align 8, !tbaa !24
  %34 = icmp eq ptr addrspace(1) %33, null
  br i1 %34, label %35, label %40

35:                                               ; preds = %50, %29
  %36 = phi ptr addrspace(1) [ %31, %29 ], [ %51, %50 ]
  %37 = getelementptr inbounds nuw i8, ptr addrspace(1) %30, i64 16
  %38 = load ptr addrspace(1), ptr addrspace(1) %37, align 8, !tbaa !25
  %39 = icmp eq ptr addrspace(1) %38, null
  br i1 %39, label %55, label %29, !llvm.loop !26

40:                                               ; preds = %29, %50
  %41 = phi ptr addrspace(1) [ %53, %50 ], [ %33, %29 ]
  %42 = phi ptr addrspace(1) [ %51, %50 ], [ %31, %29 ]
  %43 = load ptr addrspace(1), ptr addrspace(1) %41, align 8, !tbaa !20
  %44 = load i64, ptr addrspace(1) %43, align 8, !tbaa !9
  %45 = icmp slt i64 %44, 0
  br i1 %45, label %46, label %50

46:                                               ; preds = %40
  %47 = load i64, ptr addrspace(1) %30, align 8, !tbaa !9
  %48 = add nsw i64 %47, 1
  store i64 %48, ptr addrspace(1) %43, align 8, !tbaa !9
  %49 = getelementptr inbounds nuw i8, ptr addrspace(1) %42, i64 16
  store ptr addrspace(1) %43, ptr addrspace(1) %49, align 8, !tbaa !25
  br label %50

50:                                               ; preds = %46, %40
  %51 = phi ptr addrspace(1) [ %43, %46 ], [ %42, %40 ]
  %52 = getelementptr inbounds nuw i8, ptr addrspace(1) %41, i64 8
  %53 = load ptr addrspace(1), ptr addrspace(1) %52, align 8, !tbaa !24
  %54 = icmp eq ptr addrspace(1) %53, null
  br i1 %54, label %35, label %40, !llvm.loop !27

55:                                               ; preds = %35, %26
  %56 = icmp sgt i64 %1, 0
  br i1 %56, label %58, label %57

57:                                               ; preds = %58, %55
  ret i32 0

58:                                               ; preds = %55, %58
  %59 = phi i64 [ %63, %58 ], [ 0, %55 ]
  %60 = getelementptr inbounds nuw %struct.Place, ptr addrspace(1) %2, i64 %59
  %61 = load ptr addrspace(1), ptr addrspace(1) %60, align 8, !tbaa !15
  %62 = load i64, ptr addrspace(1) %61, align 8, !tbaa !9
  tail call void @print_i64(i64 noundef %62) #2
  %63 = add nuw nsw i64 %59, 1
  %64 = icmp eq i64 %63, %1
  br i1 %64, label %57, label %58, !llvm.loop !28
}

declare i64 @read_i64() local_unnamed_addr #1

declare ptr addrspace(1) @gc_new.struct.Place(i64 noundef) local_unnamed_addr #1

declare ptr addrspace(1) @gc_new.struct.Node(i64 noundef) local_unnamed_addr #1

declare ptr addrspace(1) @gc_new.struct.Edge(i64 noundef) local_unnamed_addr #1

declare void @print_i64(i64 noundef) local_unnamed_addr #1

attributes #0 = { nounwind uwtable "min-legal-vector-width"="0" "no-trapping-math"="true" "stack-protector-buffer-size"="8" "target-cpu"="x86-64" "target-features"="+cmov,+cx8,+fxsr,+mmx,+sse,+sse2,+x87" "tune-cpu"="generic" }
attributes #1 = { "no-trapping-math"="true" "stack-protector-buffer-size"="8" "target-cpu"="x86-64" "target-features"="+cmov,+cx8,+fxsr,+mmx,+sse,+sse2,+x87" "tune-cpu"="generic" }
attributes #2 = { nounwind }

!llvm.module.flags = !{!0, !1, !2, !3}
!llvm.ident = !{!4}
!llvm.errno.tbaa = !{!5}

!0 = !{i32 1, !"wchar_size", i32 4}
!1 = !{i32 8, !"PIC Level", i32 2}
!2 = !{i32 7, !"PIE Level", i32 2}
!3 = !{i32 7, !"uwtable", i32 2}
!4 = !{!"clang version 22.1.8"}
!5 = !{!6, !6, i64 0}
!6 = !{!"int", !7, i64 0}
!7 = !{!"omnipotent char", !8, i64 0}
!8 = !{!"Simple C/C++ TBAA"}
!9 = !{!10, !11, i64 0}
!10 = !{!"Node", !11, i64 0, !12, i64 8, !14, i64 16}
!11 = !{!"long", !7, i64 0}
!12 = !{!"p1 _ZTS4Edge", !13, i64 0}
!13 = !{!"any pointer", !7, i64 0}
!14 = !{!"p1 _ZTS4Node", !13, i64 0}
!15 = !{!16, !14, i64 0}
!16 = !{!"Place", !14, i64 0}
!17 = distinct !{!17, !18, !19}
!18 = !{!"llvm.loop.mustprogress"}
!19 = !{!"llvm.loop.unroll.disable"}
!20 = !{!21, !14, i64 0}
!21 = !{!"Edge", !14, i64 0, !12, i64 8}
!22 = !{!10, !12, i64 8}
!23 = !{!21, !12, i64 8}
!24 = !{!12, !12, i64 0}
!25 = !{!10, !14, i64 16}
!26 = distinct !{!26, !18, !19}
!27 = distinct !{!27, !18, !19}
!28 = distinct !{!28, !18, !19}
