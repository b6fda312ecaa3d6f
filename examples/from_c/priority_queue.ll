; ModuleID = 'priority_queue.c'
source_filename = "priority_queue.c"
target datalayout = "e-m:e-p270:32:32-p271:32:32-p272:64:64-i64:64-i128:128-f80:128-n8:16:32:64-S128"
target triple = "x86_64-unknown-linux-gnu"

%struct.Item = type { i64, ptr addrspace(1) }

; Function Attrs: nounwind uwtable
define dso_local noundef i32 @main() local_unnamed_addr gc "statepoint-example" {
  %1 = tail call i64 @read_i64() #2
  %2 = tail call ptr addrspace(1) @gc_new.struct.Item(i64 noundef %1) #2
  %3 = icmp sgt i64 %1, 0
  br i1 %3, label %8, label %4

4:                                                ; preds = %30, %0
  %5 = icmp sgt i64 %1, 0
  br i1 %5, label %6, label %82

6:                                                ; preds = %4
  %7 = getelementptr inbounds nuw i8, ptr addrspace(1) %2, i64 8
  br label %35

8:                                                ; preds = %0, %30
  %9 = phi i64 [ %31, %30 ], [ 0, %0 ]
  %10 = tail call i64 @read_i64() #2
  %11 = getelementptr inbounds nuw %struct.Item, ptr addrspace(1) %2, i64 %9
  store i64 %10, ptr addrspace(1) %11, align 8, !tbaa !9
  %12 = tail call ptr addrspace(1) @gc_new.struct.Item(i64 noundef 1) #2
  %13 = getelementptr inbounds nuw i8, ptr addrspace(1) %11, i64 8
  store ptr addrspace(1) %12, ptr addrspace(1) %13, align 8, !tbaa !14
  store i64 %9, ptr addrspace(1) %12, align 8, !tbaa !9
  %14 = icmp eq i64 %9, 0
  br i1 %14, label %30, label %15

15:                                               ; preds = %8, %24
  %16 = phi i64 [ %20, %24 ], [ %9, %8 ]
  %17 = getelementptr inbounds nuw %struct.Item, ptr addrspace(1) %2, i64 %16
  %18 = load i64, ptr addrspace(1) %17, align 8, !tbaa !9
  %19 = add nsw i64 %16, -1
  %20 = lshr i64 %19, 1
  %21 = getelementptr inbounds nuw %struct.Item, ptr addrspace(1) %2, i64 %20
  %22 = load i64, ptr addrspace(1) %21, align 8, !tbaa !9
  %23 = icmp slt i64 %18, %22
  br i1 %23, label %24, label %30

24:                                               ; preds = %15
  %25 = getelementptr inbounds nuw i8, ptr addrspace(1) %17, i64 8
  %26 = load ptr addrspace(1), ptr addrspace(1) %25, align 8, !tbaa !14
  store i64 %22, ptr addrspace(1) %17, align 8, !tbaa !9
  %27 = getelementptr inbounds nuw i8, ptr addrspace(1) %21, i64 8
  %28 = load ptr addrspace(1), ptr addrspace(1) %27, align 8, !tbaa !14
  store ptr addrspace(1) %28, ptr addrspace(1) %25, align 8, !tbaa !14
  store i64 %18, ptr addrspace(1) %21, align 8, !tbaa !9
  store ptr addrspace(1) %26, ptr addrspace(1) %27, align 8, !tbaa !14
  %29 = icmp eq i64 %20, 0
  br i1 %29, label %30, label %15, !llvm.loop !15

30:                                               ; preds = %15, %24, %8
  %31 = add nuw nsw i64 %9, 1
  %32 = icmp eq i64 %31, %1
  br i1 %32, label %4, label %8, !llvm.loop !18

33:                                               ; preds = %70
  %34 = icmp sgt i64 %36, 1
  br i1 %34, label %35, label %82, !llvm.loop !19

35:                                               ; preds = %6, %33
  %36 = phi i64 [ %1, %6 ], [ %40, %33 ]
  %37 = load i64, ptr addrspace(1) %2, align 8, !tbaa !9
  tail call void @print_i64(i64 noundef %37) #2
  %38 = load ptr addrspace(1), ptr addrspace(1) %7, align 8, !tbaa !14
  %39 = load i64, ptr addrspace(1) %38, align 8, !tbaa !9
  tail call void @print_i64(i64 noundef %39) #2
  %40 = add nsw i64 %36, -1
  %41 = load i64, ptr addrspace(1) %2, align 8, !tbaa !9
  %42 = load ptr addrspace(1), ptr addrspace(1) %7, align 8, !tbaa !14
  %43 = getelementptr inbounds %struct.Item, ptr addrspace(1) %2, i64 %40
  %44 = load i64, ptr addrspace(1) %43, align 8, !tbaa !9
  store i64 %44, ptr addrspace(1) %2, align 8, !tbaa !9
  %45 = getelementptr inbounds nuw i8, ptr addrspace(1) %43, i64 8
  %46 = load ptr addrspace(1), ptr addrspace(1) %45, align 8, !tbaa !14
  store ptr addrspace(1) %46, ptr addrspace(1) %7, align 8, !tbaa !14
  store i64 %41, ptr addrspace(1) %43, align 8, !tbaa !9
  store ptr addrspace(1) %42, ptr addrspace(1) %45, align 8, !tbaa !14
  br label %47

47:                                               ; preds = %73, %35
  %48 = phi i64 [ 0, %35 ], [ %71, %73 ]
  %49 = shl nsw i64 %48, 1
  %50 = or disjoint i64 %49, 1
  %51 = icmp slt i64 %50, %40
  br i1 %51, label %52, label %59

52:                                               ; preds = %47
  %53 = getelementptr inbounds %struct.Item, ptr addrspace(1) %2, i64 %50
  %54 = load i64, ptr addrspace(1) %53, align 8, !tbaa !9
  %55 = getelementptr inbounds %struct.Item, ptr addrspace(1) %2, i64 %48
  %56 = load i64, ptr addrspace(1) %55, align 8, !tbaa !9
  %57 = icmp slt i64 %54, %56
  %58 = select i1 %57, i64 %50, i64 %48
  br label %59

59:                                               ; preds = %52, %47
  %60 = phi i64 [ %48, %47 ], [ %58, %52 ]
  %61 = add nsw i64 %49, 2
  %62 = icmp slt i64 %61, %40
  br i1 %62, label %63, label %70

63:                                               ; preds = %59
  %64 = getelementptr inbounds %struct.Item, ptr addrspace(1) %2, i64 %61
  %65 = load i64, ptr addrspace(1) %64, align 8, !tbaa !9
  %66 = getelementptr inbounds %struct.Item, ptr addrspace(1) %2, i64 %60
  %67 = load i64, ptr addrspace(1) %66, align 8, !tbaa !9
  %68 = icmp slt i64 %65, %67
  %69 = select i1 %68, i64 %61, i64 %60
  br label %70

70:                                               ; preds = %63, %59
  %71 = phi i64 [ %60, %59 ], [ %69, %63 ]
  %72 = icmp eq i64 %71, %48
  br i1 %72, label %33, label %73

73:                                               ; preds = %70
  %74 = getelementptr inbounds %struct.Item, ptr addrspace(1) %2, i64 %48
  %75 = load i64, ptr addrspace(1) %74, align 8, !tbaa !9
  %76 = getelementptr inbounds nuw i8, ptr addrspace(1) %74, i64 8
  %77 = load ptr addrspace(1), ptr addrspace(1) %76, align 8, !tbaa !14
  %78 = getelementptr inbounds %struct.Item, ptr addrspace(1) %2, i64 %71
  %79 = load i64, ptr addrspace(1) %78, align 8, !tbaa !9
  store i64 %79, ptr addrspace(1) %74, align 8, !tbaa !9
  %80 = getelementptr inbounds nuw i8, ptr addrspace(1) %78, i64 8
  %81 = load ptr addrspace(1), ptr addrspace(1) %80, align 8, !tbaa !14
  store ptr addrspace(1) %81, ptr addrspace(1) %76, align 8, !tbaa !14
  store i64 %75, ptr addrspace(1) %78, align 8, !tbaa !9
  store ptr addrspace(1) %77, ptr addrspace(1) %80, align 8, !tbaa !14
  br label %47, !llvm.loop !20

82:                                               ; preds = %33, %4
  ret i32 0
}

declare i64 @read_i64() local_unnamed_addr #1

declare ptr addrspace(1) @gc_new.struct.Item(i64 noundef) local_unnamed_addr #1

declare void @print_i64(i64 noundef) local_unnamed_addr #1

attributes #0 = { nounwind uwtable "min-legal-vector-width"="0" "no-trapping-math"="true" "stack-protector-buffer-size"="8" "target-cpu"="x86-64" "target-features"="+cmov,+cx8,+fxsr,+mmx,+sse,+sse2,+x87" "tune-cpu"="generic" }
attributes #1 = { "no-trapping-math"="true" "stack-protector-buffer-size"="8" "target-cpu"="x86-64" "target-features"="+cmov,+cx8,+fxsr,+mmx,+sse,+sse2,+x87" "tune-cpu"="generic" }
attributes #2 = { nounwind }

!llvm.module.flags = !{!0, !1, !2, !3}
!llvm.ident = !{!4}
!llvm.errno.tbaa = !{!5}

!0 = !{i32 1, !"wchar_size", i32 4}
!1 = !{i32 8, !"PIC Level", i32 2}
!2 = !{i32 7, !"PIE Level", i32 2}
!3 = !{i32 7, !"uwtable", i32 2}
!4 = !{!"clang version 22.1.8"}
!5 = !{!6, !6, i64 0}
!6 = !{!"int", !7, i64 0}
!7 = !{!"omnipotent char", !8, i64 0}
!8 = !{!"Simple C/C++ TBAA"}
!9 = !{!10, !11, i64 0}
!10 = !{!"Item", !11, i64 0, !12, i64 8}
!11 = !{!"long", !7, i64 0}
!12 = !{!"p1 _ZTS4Item", !13, i64 0}
!13 = !{!"any pointer", !7, i64 0}
!14 = !{!10, !12, i64 8}
!15 = distinct !{!15, !16, !17}
!16 = !{!"llvm.loop.mustprogress"}
!17 = !{!"llvm.loop.unroll.disable"}
!18 = distinct !{!18, !16, !17}
!19 = distinct !{!19, !16, !17}
!20 = distinct !{!20, !17}
