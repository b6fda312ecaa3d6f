; ModuleID = 'merged_pointers.c'
source_filename = "merged_pointers.c"
target datalayout = "e-m:e-p270:32:32-p271:32:32-p272:64:64-i64:64-i128:128-f80:128-n8:16:32:64-S128"
target triple = "x86_64-unknown-linux-gnu"

%struct.Cell = type { i64, ptr addrspace(1) }

; Function Attrs: nounwind uwtable
define dso_local noundef i32 @main() local_unnamed_addr gc "statepoint-example" {
  %1 = tail call i64 @read_i64() #2
  %2 = tail call ptr addrspace(1) @gc_new.struct.Cell(i64 noundef %1) #2
  %3 = tail call ptr addrspace(1) @gc_new.struct.Cell(i64 noundef %1) #2
  %4 = icmp sgt i64 %1, 0
  br i1 %4, label %9, label %5

5:                                                ; preds = %36, %0
  %6 = phi ptr addrspace(1) [ %3, %0 ], [ %37, %36 ]
  %7 = phi ptr addrspace(1) [ %2, %0 ], [ %30, %36 ]
  %8 = icmp sgt i64 %1, 0
  br i1 %8, label %40, label %46

9:                                                ; preds = %0, %36
  %10 = phi ptr addrspace(1) [ %30, %36 ], [ %2, %0 ]
  %11 = phi ptr addrspace(1) [ %37, %36 ], [ %3, %0 ]
  %12 = phi i64 [ %38, %36 ], [ 0, %0 ]
  %13 = tail call i64 @read_i64() #2
  %14 = getelementptr inbounds nuw %struct.Cell, ptr addrspace(1) %2, i64 %12
  store i64 %13, ptr addrspace(1) %14, align 8, !tbaa !9
  %15 = tail call i64 @read_i64() #2
  %16 = getelementptr inbounds nuw %struct.Cell, ptr addrspace(1) %3, i64 %12
  store i64 %15, ptr addrspace(1) %16, align 8, !tbaa !9
  %17 = load i64, ptr addrspace(1) %14, align 8, !tbaa !9
  %18 = icmp sgt i64 %17, %15
  %19 = select i1 %18, ptr addrspace(1) %14, ptr addrspace(1) %16
  %20 = select i1 %18, ptr addrspace(1) %16, ptr addrspace(1) %14
  %21 = tail call ptr addrspace(1) @gc_new.struct.Cell(i64 noundef 1) #2
  %22 = getelementptr inbounds nuw i8, ptr addrspace(1) %19, i64 8
  store ptr addrspace(1) %21, ptr addrspace(1) %22, align 8, !tbaa !14
  store i64 %12, ptr addrspace(1) %21, align 8, !tbaa !9
  %23 = icmp eq i64 %12, 0
  br i1 %23, label %28, label %24

24:                                               ; preds = %9
  %25 = load i64, ptr addrspace(1) %19, align 8, !tbaa !9
  %26 = load i64, ptr addrspace(1) %10, align 8, !tbaa !9
  %27 = icmp sgt i64 %25, %26
  br i1 %27, label %28, label %29

28:                                               ; preds = %24, %9
  br label %29

29:                                               ; preds = %28, %24
  %30 = phi ptr addrspace(1) [ %19, %28 ], [ %10, %24 ]
  br i1 %23, label %35, label %31

31:                                               ; preds = %29
  %32 = load i64, ptr addrspace(1) %20, align 8, !tbaa !9
  %33 = load i64, ptr addrspace(1) %11, align 8, !tbaa !9
  %34 = icmp slt i64 %32, %33
  br i1 %34, label %35, label %36

35:                                               ; preds = %31, %29
  br label %36

36:                                               ; preds = %35, %31
  %37 = phi ptr addrspace(1) [ %20, %35 ], [ %11, %31 ]
  %38 = add nuw nsw i64 %12, 1
  %39 = icmp eq i64 %38, %1
  br i1 %39, label %5, label %9, !llvm.loop !15

40:                                               ; preds = %5
  %41 = load i64, ptr addrspace(1) %7, align 8, !tbaa !9
  tail call void @print_i64(i64 noundef %41) #2
  %42 = getelementptr inbounds nuw i8, ptr addrspace(1) %7, i64 8
  %43 = load ptr addrspace(1), ptr addrspace(1) %42, align 8, !tbaa !14
  %44 = load i64, ptr addrspace(1) %43, align 8, !tbaa !9
  tail call void @print_i64(i64 noundef %44) #2
  %45 = load i64, ptr addrspace(1) %6, align 8, !tbaa !9
  tail call void @print_i64(i64 noundef %45) #2
  br label %46

46:                                               ; preds = %40, %5
  ret i32 0
}

declare i64 @read_i64() local_unnamed_addr #1

declare ptr addrspace(1) @gc_new.struct.Cell(i64 noundef) local_unnamed_addr #1

declare void @print_i64(i64 noundef) local_unnamed_addr #1

attributes #0 = { nounwind uwtable "min-legal-vector-width"="0" "no-trapping-math"="true" "stack-protector-buffer-size"="8" "target-cpu"="x86-64" "target-features"="+cmov,+cx8,+fxsr,+mmx,+sse,+sse2,+x87" "tune-cpu"="generic" }
attributes #1 = { "no-trapping-math"="true" "stack-protector-buffer-size"="8" "target-cpu"="x86-64" "target-features"="+cmov,+cx8,+fxsr,+mmx,+sse,+sse2,+x87" "tune-cpu"="generic" }
attributes #2 = { nounwind }

!llvm.module.flags = !{!0, !1, !2, !3}
!llvm.ident = !{!4}
!llvm.errno.tbaa = !{!5}

!0 = !{i32 1, !"wchar_size", i32 4}
!1 = !{i32 8, !"PIC Level", i32 2}
!2 = !{i32 7, !"PIE Level", i32 2}
!3 = !{i32 7, !"uwtable", i32 2}
!4 = !{!"clang version 22.1.8"}
!5 = !{!6, !6, i64 0}
!6 = !{!"int", !7, i64 0}
!7 = !{!"omnipotent char", !8, i64 0}
!8 = !{!"Simple C/C++ TBAA"}
!9 = !{!10, !11, i64 0}
!10 = !{!"Cell", !11, i64 0, !12, i64 8}
!11 = !{!"long", !7, i64 0}
!12 = !{!"p1 _ZTS4Cell", !13, i64 0}
!13 = !{!"any pointer", !7, i64 0}
!14 = !{!10, !12, i64 8}
!15 = distinct !{!15, !16, !17}
!16 = !{!"llvm.loop.mustprogress"}
!17 = !{!"llvm.loop.unroll.disable"}
