; ModuleID = 'union_find.c'
source_filename = "union_find.c"
target datalayout = "e-m:e-p270:32:32-p271:32:32-p272:64:64-i64:64-i128:128-f80:128-n8:16:32:64-S128"
target triple = "x86_64-unknown-linux-gnu"

%struct.Place = type { ptr addrspace(1) }

; Function Attrs: nounwind uwtable
define dso_local noundef i32 @main() local_unnamed_addr gc "statepoint-example" {
  %1 = tail call i64 @read_i64() #2
  %2 = tail call ptr addrspace(1) @gc_new.struct.Place(i64 noundef %1) #2
  %3 = icmp sgt i64 %1, 0
  br i1 %3, label %4, label %10

4:                                                ; preds = %0, %4
  %5 = phi i64 [ %8, %4 ], [ 0, %0 ]
  %6 = tail call ptr addrspace(1) @gc_new.struct.Member(i64 noundef 1) #2
  %7 = getelementptr inbounds nuw %struct.Place, ptr addrspace(1) %2, i64 %5
  store ptr addrspace(1) %6, ptr addrspace(1) %7, align 8, !tbaa !9
  store i64 1, ptr addrspace(1) %6, align 8, !tbaa !13
  %8 = add nuw nsw i64 %5, 1
  %9 = icmp eq i64 %8, %1
  br i1 %9, label %10, label %4, !llvm.loop !16

10:                                               ; preds = %4, %0
  br label %11

11:                                               ; preds = %10, %87
  %12 = phi i64 [ %88, %87 ], [ %1, %10 ]
  %13 = tail call i64 @read_i64() #2
  %14 = icmp sgt i64 %13, -1
  br i1 %14, label %15, label %87

15:                                               ; preds = %11
  %16 = getelementptr inbounds nuw %struct.Place, ptr addrspace(1) %2, i64 %13
  %17 = load ptr addrspace(1), ptr addrspace(1) %16, align 8, !tbaa !9
  %18 = getelementptr inbounds nuw i8, ptr addrspace(1) %17, i64 8
  %19 = load ptr addrspace(1), ptr addrspace(1) %18, align 8, !tbaa !19
  %20 = icmp eq ptr addrspace(1) %19, null
  br i1 %20, label %33, label %21

21:                                               ; preds = %15, %28
  %22 = phi ptr addrspace(1) [ %31, %28 ], [ %19, %15 ]
  %23 = phi ptr addrspace(1) [ %30, %28 ], [ %18, %15 ]
  %24 = getelementptr inbounds nuw i8, ptr addrspace(1) %22, i64 8
  %25 = load ptr addrspace(1), ptr addrspace(1) %24, align 8, !tbaa !19
  %26 = icmp eq ptr addrspace(1) %25, null
  br i1 %26, label %28, label %27

27:                                               ; preds = %21
  store ptr addrspace(1) %25, ptr addrspace(1) %23, align 8, !tbaa !19
  br label %28

28:                                               ; preds = %27, %21
  %29 = load ptr addrspace(1), ptr addrspace(1) %23, align 8, !tbaa !19
  %30 = getelementptr inbounds nuw i8, ptr addrspace(1) %29, i64 8
  %31 = load ptr addrspace(1), ptr addrspace(1) %30, align 8, !tbaa !19
  %32 = icmp eq ptr addrspace(1) %31, null
  br i1 %32, label %33, label %21, !llvm.loop !20

33:                                               ; preds = %28, %15
  %34 = phi ptr addrspace(1) [ %17, %15 ], [ %29, %28 ]
  %35 = tail call i64 @read_i64() #2
  %36 = getelementptr inbounds %struct.Place, ptr addrspace(1) %2, i64 %35
  %37 = load ptr addrspace(1), ptr addrspace(1) %36, align 8, !tbaa !9
  %38 = getelementptr inbounds nuw i8, ptr addrspace(1) %37, i64 8
  %39 = load ptr addrspace(1), ptr addrspace(1) %38, align 8, !tbaa !19
  %40 = icmp eq ptr addrspace(1) %39, null
  br i1 %40, label %53, label %41

41:                                               ; preds = %33, %48
  %42 = phi ptr addrspace(1) [ %51, %48 ], [ %39, %33 ]
  %43 = phi ptr addrspace(1) [ %50, %48 ], [ %38, %33 ]
  %44 = getelementptr inbounds nuw i8, ptr addrspace(1) %42, i64 8
  %45 = load ptr addrspace(1), ptr addrspace(1) %44, align 8, !tbaa !19
  %46 = icmp eq ptr addrspace(1) %45, null
  br i1 %46, label %48, label %47

47:                                               ; preds = %41
  store ptr addrspace(1) %45, ptr addrspace(1) %43, align 8, !tbaa !19
  br label %48

48:                                               ; preds = %47, %41
  %49 = load ptr addrspace(1), ptr addrspace(1) %43, align 8, !tbaa !19
  %50 = getelementptr inbounds nuw i8, ptr addrspace(1) %49, i64 8
  %51 = load ptr addrspace(1), ptr addrspace(1) %50, align 8, !tbaa !19
  %52 = icmp eq ptr addrspace(1) %51, null
  br i1 %52, label %53, label %41, !llvm.loop !20

53:                                               ; preds = %48, %33
  %54 = phi ptr addrspace(1) [ %37, %33 ], [ %49, %48 ]
  %55 = icmp eq ptr addrspace(1) %34, %54
  br i1 %55, label %67, label %56

56:                                               ; preds = %53
  %57 = load i64, ptr addrspace(1) %34, align 8, !tbaa !13
  %58 = load i64, ptr addrspace(1) %54, align 8, !tbaa !13
  %59 = icmp slt i64 %57, %58
  %60 = select i1 %59, ptr addrspace(1) %54, ptr addrspace(1) %34
  %61 = select i1 %59, ptr addrspace(1) %34, ptr addrspace(1) %54
  %62 = getelementptr inbounds nuw i8, ptr addrspace(1) %61, i64 8
  store ptr addrspace(1) %60, ptr addrspace(1) %62, align 8, !tbaa !19
  %63 = load i64, ptr addrspace(1) %61, align 8, !tbaa !13
  %64 = load i64, ptr addrspace(1) %60, align 8, !tbaa !13
  %65 = add nsw i64 %64, %63
  store i64 %65, ptr addrspace(1) %60, align 8, !tbaa !13
  %66 = add nsw i64 %12, -1
  br label %67

67:                                               ; preds = %56, %53
  %68 = phi i64 [ %66, %56 ], [ %12, %53 ]
  %69 = getelementptr inbounds nuw i8, ptr addrspace(1) %34, i64 8
  %70 = load ptr addrspace(1), ptr addrspace(1) %69, align 8, !tbaa !19
  %71 = icmp eq ptr addrspace(1) %70, null
  br i1 %71, label %84, label %72

72:                                               ; preds = %67, %79
  %73 = phi ptr addrspace(1) [ %82, %79 ], [ %70, %67 ]
  %74 = phi ptr addrspace(1) [ %81, %79 ], [ %69, %67 ]
  %75 = getelementptr inbounds nuw i8, ptr addrspace(1) %73, i64 8
  %76 = load ptr addrspace(1), ptr addrspace(1) %75, align 8, !tbaa !19
  %77 = icmp eq ptr addrspace(1) %76, null
  br i1 %77, label %79, label %78

78:                                               ; preds = %72
  store ptr addrspace(1) %76, ptr addrspace(1) %74, align 8, !tbaa !19
  br label %79

79:                                               ; preds = %78, %72
  %80 = load ptr addrspace(1), ptr addrspace(1) %74, align 8, !tbaa !19
  %81 = getelementptr inbounds nuw i8, ptr addrspace(1) %80, i64 8
  %82 = load ptr addrspace(1), ptr addrspace(1) %81, align 8, !tbaa !19
  %83 = icmp eq ptr addrspace(1) %82, null
  br i1 %83, label %84, label %72, !llvm.loop !20

84:                                               ; preds = %79, %67
  %85 = phi ptr addrspace(1) [ %34, %67 ], [ %80, %79 ]
  %86 = load i64, ptr addrspace(1) %85, align 8, !tbaa !13
  tail call void @print_i64(i64 noundef %86) #2
  br label %87

87:                                               ; preds = %11, %84
  %88 = phi i64 [ %68, %84 ], [ %12, %11 ]
  br i1 %14, label %11, label %89

89:                                               ; preds = %87
  tail call void @print_i64(i64 noundef %88) #2
  ret i32 0
}

declare i64 @read_i64() local_unnamed_addr #1

declare ptr addrspace(1) @gc_new.struct.Place(i64 noundef) local_unnamed_addr #1

declare ptr addrspace(1) @gc_new.struct.Member(i64 noundef) local_unnamed_addr #1

declare void @print_i64(i64 noundef) local_unnamed_addr #1

attributes #0 = { nounwind uwtable "min-legal-vector-width"="0" "no-trapping-math"="true" "stack-protector-buffer-size"="8" "target-cpu"="x86-64" "target-features"="+cmov,+cx8,+fxsr,+mmx,+sse,+sse2,+x87" "tune-cpu"="generic" }
attributes #1 = { "no-trapping-math"="true" "stack-protector-buffer-size"="8" "target-cpu"="x86-64" "target-features"="+cmov,+cx8,+fxsr,+mmx,+sse,+sse2,+x87" "tune-cpu"="generic" }
attributes #2 = { nounwind }

!llvm.module.flags = !{!0, !1, !2, !3}
!llvm.ident = !{!4}
!llvm.errno.tbaa = !{!5}

!0 = !{i32 1, !"wchar_size", i32 4}
!1 = !{i32 8, !"PIC Level", i32 2}
!2 = !{i32 7, !"PIE Level", i32 2}
!3 = !{i32 7, !"uwtable", i32 2}
!4 = !{!"clang version 22.1.8"}
!5 = !{!6, !6, i64 0}
!6 = !{!"int", !7, i64 0}
!7 = !{!"omnipotent char", !8, i64 0}
!8 = !{!"Simple C/C++ TBAA"}
!9 = !{!10, !11, i64 0}
!10 = !{!"Place", !11, i64 0}
!11 = !{!"p1 _ZTS6Member", !12, i64 0}
!12 = !{!"any pointer", !7, i64 0}
!13 = !{!14, !15, i64 0}
!14 = !{!"Member", !15, i64 0, !11, i64 8}
!15 = !{!"long", !7, i64 0}
!16 = distinct !{!16, !17, !18}
!17 = !{!"llvm.loop.mustprogress"}
!18 = !{!"llvm.loop.unroll.disable"}
!19 = !{!14, !11, i64 8}
!20 = distinct !{!20, !17, !18}
