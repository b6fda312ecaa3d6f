; ModuleID = 'tasks.c'
source_filename = "tasks.c"
target datalayout = "e-m:e-p270:32:32-p271:32:32-p272:64:64-i64:64-i128:128-f80:128-n8:16:32:64-S128"
target triple = "x86_64-unknown-linux-gnu"

; Function Attrs: nounwind uwtable
define dso_local void @adds(ptr addrspace(1) noundef captures(none) %0) gc "statepoint-example" {
  %2 = getelementptr inbounds nuw i8, ptr addrspace(1) %0, i64 16
  %3 = load i64, ptr addrspace(1) %2, align 8, !tbaa !9
  %4 = add nsw i64 %3, 1
  store i64 %4, ptr addrspace(1) %2, align 8, !tbaa !9
  br label %9

5:                                                ; preds = %9
  %6 = getelementptr inbounds nuw i8, ptr addrspace(1) %0, i64 8
  %7 = load i64, ptr addrspace(1) %6, align 8, !tbaa !12
  %8 = add nsw i64 %7, 1
  store i64 %8, ptr addrspace(1) %6, align 8, !tbaa !12
  ret void

9:                                                ; preds = %1, %9
  %10 = phi i64 [ 0, %1 ], [ %14, %9 ]
  %11 = tail call ptr addrspace(1) @gc_new.struct.Shared(i64 noundef 1) #2
  %12 = load i64, ptr addrspace(1) %0, align 8, !tbaa !13
  store i64 %12, ptr addrspace(1) %11, align 8, !tbaa !13
  %13 = add nsw i64 %12, %4
  store i64 %13, ptr addrspace(1) %0, align 8, !tbaa !13
  %14 = add nuw nsw i64 %10, 1
  %15 = icmp eq i64 %14, 3
  br i1 %15, label %5, label %9, !llvm.loop !14
}

declare ptr addrspace(1) @gc_new.struct.Shared(i64 noundef) local_unnamed_addr #1

; Function Attrs: nounwind uwtable
define dso_local noundef i32 @main() local_unnamed_addr gc "statepoint-example" {
  %1 = tail call ptr addrspace(1) @gc_new.struct.Shared(i64 noundef 1) #2
  tail call void @task_start(ptr noundef nonnull @adds, ptr addrspace(1) noundef %1) #2
  tail call void @task_start(ptr noundef nonnull @adds, ptr addrspace(1) noundef %1) #2
  %2 = getelementptr inbounds nuw i8, ptr addrspace(1) %1, i64 8
  %3 = load i64, ptr addrspace(1) %2, align 8, !tbaa !12
  %4 = icmp slt i64 %3, 2
  br i1 %4, label %5, label %9

5:                                                ; preds = %0, %5
  %6 = tail call ptr addrspace(1) @gc_new.struct.Shared(i64 noundef 1) #2
  %7 = load i64, ptr addrspace(1) %2, align 8, !tbaa !12
  %8 = icmp slt i64 %7, 2
  br i1 %8, label %5, label %9, !llvm.loop !17

9:                                                ; preds = %5, %0
  %10 = load i64, ptr addrspace(1) %1, align 8, !tbaa !13
  tail call void @print_i64(i64 noundef %10) #2
  ret i32 0
}

declare void @task_start(ptr noundef, ptr addrspace(1) noundef) local_unnamed_addr #1

declare void @print_i64(i64 noundef) local_unnamed_addr #1

attributes #0 = { nounwind uwtable "min-legal-vector-width"="0" "no-trapping-math"="true" "stack-protector-buffer-size"="8" "target-cpu"="x86-64" "target-features"="+cmov,+cx8,+fxsr,+mmx,+sse,+sse2,+x87" "tune-cpu"="generic" }
attributes #1 = { "no-trapping-math"="true" "stack-protector-buffer-size"="8" "target-cpu"="x86-64" "target-features"="+cmov,+cx8,+fxsr,+mmx,+sse,+sse2,+x87" "tune-cpu"="generic" }
attributes #2 = { nounwind }

!llvm.module.flags = !{!0, !1, !2, !3}
!llvm.ident = !{!4}
!llvm.errno.tbaa = !{!5}

!0 = !{i32 1, !"wchar_size", i32 4}
!1 = !{i32 8, !"PIC Level", i32 2}
!2 = !{i32 7, !"PIE Level", i32 2}
!3 = !{i32 7, !"uwtable", i32 2}
!4 = !{!"clang version 22.1.8"}
!5 = !{!6, !6, i64 0}
!6 = !{!"int", !7, i64 0}
!7 = !{!"omnipotent char", !8, i64 0}
!8 = !{!"Simple C/C++ TBAA"}
!9 = !{!10, !11, i64 16}
!10 = !{!"Shared", !11, i64 0, !11, i64 8, !11, i64 16}
!11 = !{!"long", !7, i64 0}
!12 = !{!10, !11, i64 8}
!13 = !{!10, !11, i64 0}
!14 = distinct !{!14, !15, !16}
!15 = !{!"llvm.loop.mustprogress"}
!16 = !{!"llvm.loop.unroll.disable"}
!17 = distinct !{!17, !15, !16}
