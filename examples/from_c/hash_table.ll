; ModuleID = 'hash_table.c'
source_filename = "hash_table.c"
target datalayout = "e-m:e-p270:32:32-p271:32:32-p272:64:64-i64:64-i128:128-f80:128-n8:16:32:64-S128"
target triple = "x86_64-unknown-linux-gnu"

%struct.Slot = type { ptr addrspace(1) }

; Function Attrs: nounwind uwtable
define dso_local noundef i32 @main() local_unnamed_addr gc "statepoint-example" {
  %1 = tail call ptr addrspace(1) @gc_new.struct.Table(i64 noundef 1) #2
  store i64 2, ptr addrspace(1) %1, align 8, !tbaa !9
  %2 = tail call ptr addrspace(1) @gc_new.struct.Slot(i64 noundef 2) #2
  %3 = getelementptr inbounds nuw i8, ptr addrspace(1) %1, i64 16
  store ptr addrspace(1) %2, ptr addrspace(1) %3, align 8, !tbaa !14
  %4 = tail call i64 @read_i64() #2
  %5 = icmp sgt i64 %4, 0
  br i1 %5, label %6, label %8

6:                                                ; preds = %0
  %7 = getelementptr inbounds nuw i8, ptr addrspace(1) %1, i64 8
  br label %12

8:                                                ; preds = %79, %0
  %9 = getelementptr inbounds nuw i8, ptr addrspace(1) %1, i64 8
  %10 = load i64, ptr addrspace(1) %9, align 8, !tbaa !15
  tail call void @print_i64(i64 noundef %10) #2
  %11 = load i64, ptr addrspace(1) %1, align 8, !tbaa !9
  tail call void @print_i64(i64 noundef %11) #2
  ret i32 0

12:                                               ; preds = %6, %79
  %13 = phi i64 [ %4, %6 ], [ %81, %79 ]
  %14 = tail call i64 @read_i64() #2
  %15 = load ptr addrspace(1), ptr addrspace(1) %3, align 8, !tbaa !14
  %16 = load i64, ptr addrspace(1) %1, align 8, !tbaa !9
  %17 = mul i64 %14, -7046029254386353131
  %18 = lshr i64 %17, 32
  %19 = add i64 %16, 4294967295
  %20 = and i64 %19, %18
  %21 = getelementptr inbounds nuw %struct.Slot, ptr addrspace(1) %15, i64 %20
  %22 = load ptr addrspace(1), ptr addrspace(1) %21, align 8, !tbaa !16
  %23 = icmp eq ptr addrspace(1) %22, null
  br i1 %23, label %36, label %24

24:                                               ; preds = %12, %32
  %25 = phi ptr addrspace(1) [ %34, %32 ], [ %22, %12 ]
  %26 = load i64, ptr addrspace(1) %25, align 8, !tbaa !18
  %27 = icmp eq i64 %26, %14
  br i1 %27, label %28, label %32

28:                                               ; preds = %24
  %29 = getelementptr inbounds nuw i8, ptr addrspace(1) %25, i64 8
  %30 = load i64, ptr addrspace(1) %29, align 8, !tbaa !20
  %31 = add nsw i64 %30, 1
  store i64 %31, ptr addrspace(1) %29, align 8, !tbaa !20
  br label %79

32:                                               ; preds = %24
  %33 = getelementptr inbounds nuw i8, ptr addrspace(1) %25, i64 16
  %34 = load ptr addrspace(1), ptr addrspace(1) %33, align 8, !tbaa !16
  %35 = icmp eq ptr addrspace(1) %34, null
  br i1 %35, label %36, label %24, !llvm.loop !21

36:                                               ; preds = %32, %12
  %37 = load i64, ptr addrspace(1) %7, align 8, !tbaa !15
  %38 = icmp eq i64 %37, %16
  br i1 %38, label %39, label %67

39:                                               ; preds = %36
  %40 = shl nsw i64 %16, 1
  %41 = tail call ptr addrspace(1) @gc_new.struct.Slot(i64 noundef %40) #2
  %42 = load i64, ptr addrspace(1) %1, align 8, !tbaa !9
  %43 = icmp sgt i64 %42, 0
  br i1 %43, label %44, label %66

44:                                               ; preds = %39
  %45 = load ptr addrspace(1), ptr addrspace(1) %3, align 8, !tbaa !14
  %46 = add nsw i64 %40, -1
  br label %47

47:                                               ; preds = %63, %44
  %48 = phi i64 [ 0, %44 ], [ %64, %63 ]
  %49 = getelementptr inbounds nuw %struct.Slot, ptr addrspace(1) %45, i64 %48
  %50 = load ptr addrspace(1), ptr addrspace(1) %49, align 8, !tbaa !24
  %51 = icmp eq ptr addrspace(1) %50, null
  br i1 %51, label %63, label %52

52:                                               ; preds = %47, %52
  %53 = phi ptr addrspace(1) [ %55, %52 ], [ %50, %47 ]
  %54 = getelementptr inbounds nuw i8, ptr addrspace(1) %53, i64 16
  %55 = load ptr addrspace(1), ptr addrspace(1) %54, align 8, !tbaa !26
  %56 = load i64, ptr addrspace(1) %53, align 8, !tbaa !18
  %57 = mul i64 %56, -7046029254386353131
  %58 = lshr i64 %57, 32
  %59 = and i64 %58, %46
  %60 = getelementptr inbounds nuw %struct.Slot, ptr addrspace(1) %41, i64 %59
  %61 = load ptr addrspace(1), ptr addrspace(1) %60, align 8, !tbaa !24
  store ptr addrspace(1) %61, ptr addrspace(1) %54, align 8, !tbaa !26
  store ptr addrspace(1) %53, ptr addrspace(1) %60, align 8, !tbaa !24
  %62 = icmp eq ptr addrspace(1) %55, null
  br i1 %62, label %63, label %52, !llvm.loop !27

63:                                               ; preds = %52, %47
  %64 = add nuw nsw i64 %48, 1
  %65 = icmp eq i64 %64, %42
  br i1 %65, label %66, label %47, !llvm.loop !28

66:                                               ; preds = %63, %39
  store ptr addrspace(1) %41, ptr addrspace(1) %3, align 8, !tbaa !14
  store i64 %40, ptr addrspace(1) %1, align 8, !tbaa !9
  br label %67

67:                                               ; preds = %66, %36
  %68 = tail call ptr addrspace(1) @gc_new.struct.Entry(i64 noundef 1) #2
  %69 = load i64, ptr addrspace(1) %1, align 8, !tbaa !9
  %70 = add i64 %69, 4294967295
  %71 = and i64 %70, %18
  store i64 %14, ptr addrspace(1) %68, align 8, !tbaa !18
  %72 = getelementptr inbounds nuw i8, ptr addrspace(1) %68, i64 8
  store i64 1, ptr addrspace(1) %72, align 8, !tbaa !20
  %73 = load ptr addrspace(1), ptr addrspace(1) %3, align 8, !tbaa !14
  %74 = getelementptr inbounds nuw %struct.Slot, ptr addrspace(1) %73, i64 %71
  %75 = load ptr addrspace(1), ptr addrspace(1) %74, align 8, !tbaa !24
  %76 = getelementptr inbounds nuw i8, ptr addrspace(1) %68, i64 16
  store ptr addrspace(1) %75, ptr addrspace(1) %76, align 8, !tbaa !26
  store ptr addrspace(1) %68, ptr addrspace(1) %74, align 8, !tbaa !24
  %77 = load i64, ptr addrspace(1) %7, align 8, !tbaa !15
  %78 = add nsw i64 %77, 1
  store i64 %78, ptr addrspace(1) %7, align 8, !tbaa !15
  br label %79

79:                                               ; preds = %28, %67
  %80 = phi i64 [ %31, %28 ], [ 1, %67 ]
  tail call void @print_i64(i64 noundef %80) #2
  %81 = add nsw i64 %13, -1
  %82 = icmp sgt i64 %13, 1
  br i1 %82, label %12, label %8, !llvm.loop !29
}

declare ptr addrspace(1) @gc_new.struct.Table(i64 noundef) local_unnamed_addr #1

declare ptr addrspace(1) @gc_new.struct.Slot(i64 noundef) local_unnamed_addr #1

declare i64 @read_i64() local_unnamed_addr #1

declare void @print_i64(i64 noundef) local_unnamed_addr #1

declare ptr addrspace(1) @gc_new.struct.Entry(i64 noundef) local_unnamed_addr #1

attributes #0 = { nounwind uwtable "min-legal-vector-width"="0" "no-trapping-math"="true" "stack-protector-buffer-size"="8" "target-cpu"="x86-64" "target-features"="+cmov,+cx8,+fxsr,+mmx,+sse,+sse2,+x87" "tune-cpu"="generic" }
attributes #1 = { "no-trapping-math"="true" "stack-protector-buffer-size"="8" "target-cpu"="x86-64" "target-features"="+cmov,+cx8,+fxsr,+mmx,+sse,+sse2,+x87" "tune-cpu"="generic" }
attributes #2 = { nounwind }

!llvm.module.flags = !{!0, !1, !2, !3}
!llvm.ident = !{!4}
!llvm.errno.tbaa = !{!5}

!0 = !{i32 1, !"wchar_size", i32 4}
!1 = !{i32 8, !"PIC Level", i32 2}
!2 = !{i32 7, !"PIE Level", i32 2}
!3 = !{i32 7, !"uwtable", i32 2}
!4 = !{!"clang version 22.1.8"}
!5 = !{!6, !6, i64 0}
!6 = !{!"int", !7, i64 0}
!7 = !{!"omnipotent char", !8, i64 0}
!8 = !{!"Simple C/C++ TBAA"}
!9 = !{!10, !11, i64 0}
!10 = !{!"Table", !11, i64 0, !11, i64 8, !12, i64 16}
!11 = !{!"long", !7, i64 0}
!12 = !{!"p1 _ZTS4Slot", !13, i64 0}
!13 = !{!"any pointer", !7, i64 0}
!14 = !{!10, !12, i64 16}
!15 = !{!10, !11, i64 8}
!16 = !{!17, !17, i64 0}
!17 = !{!"p1 _ZTS5Entry", !13, i64 0}
!18 = !{!19, !11, i64 0}
!19 = !{!"Entry", !11, i64 0, !11, i64 8, !17, i64 16}
!20 = !{!19, !11, i64 8}
!21 = distinct !{!21, !22, !23}
!22 = !{!"llvm.loop.mustprogress"}
!23 = !{!"llvm.loop.unroll.disable"}
!24 = !{!25, !17, i64 0}
!25 = !{!"Slot", !17, i64 0}
!26 = !{!19, !17, i64 16}
!27 = distinct !{!27, !22, !23}
!28 = distinct !{!28, !22, !23}
!29 = distinct !{!29, !22, !23}
