; ModuleID = 'list.c'
source_filename = "list.c"
target datalayout = "e-m:e-p270:32:32-p271:32:32-p272:64:64-i64:64-i128:128-f80:128-n8:16:32:64-S128"
target triple = "x86_64-unknown-linux-gnu"

; Function Attrs: nounwind uwtable
define dso_local noundef i32 @main() local_unnamed_addr gc "statepoint-example" {
  %1 = tail call i64 @read_i64() #2
  %2 = icmp sgt i64 %1, 0
  br i1 %2, label %18, label %3

3:                                                ; preds = %18, %0
  %4 = phi ptr addrspace(1) [ null, %0 ], [ %22, %18 ]
  %5 = icmp eq ptr addrspace(1) %4, null
  br i1 %5, label %15, label %6

6:                                                ; preds = %3, %6
  %7 = phi ptr addrspace(1) [ %10, %6 ], [ null, %3 ]
  %8 = phi ptr addrspace(1) [ %13, %6 ], [ %4, %3 ]
  %9 = load i64, ptr addrspace(1) %8, align 8, !tbaa !9
  %10 = tail call noundef ptr addrspace(1) @gc_new.struct.Node(i64 noundef 1) #2
  store i64 %9, ptr addrspace(1) %10, align 8, !tbaa !9
  %11 = getelementptr inbounds nuw i8, ptr addrspace(1) %10, i64 8
  store ptr addrspace(1) %7, ptr addrspace(1) %11, align 8, !tbaa !14
  %12 = getelementptr inbounds nuw i8, ptr addrspace(1) %8, i64 8
  %13 = load ptr addrspace(1), ptr addrspace(1) %12, align 8, !tbaa !14
  %14 = icmp eq ptr addrspace(1) %13, null
  br i1 %14, label %15, label %6, !llvm.loop !15

15:                                               ; preds = %6, %3
  %16 = phi ptr addrspace(1) [ null, %3 ], [ %10, %6 ]
  %17 = icmp eq ptr addrspace(1) %16, null
  br i1 %17, label %26, label %28

18:                                               ; preds = %0, %18
  %19 = phi i64 [ %24, %18 ], [ %1, %0 ]
  %20 = phi ptr addrspace(1) [ %22, %18 ], [ null, %0 ]
  %21 = tail call i64 @read_i64() #2
  %22 = tail call noundef ptr addrspace(1) @gc_new.struct.Node(i64 noundef 1) #2
  store i64 %21, ptr addrspace(1) %22, align 8, !tbaa !9
  %23 = getelementptr inbounds nuw i8, ptr addrspace(1) %22, i64 8
  store ptr addrspace(1) %20, ptr addrspace(1) %23, align 8, !tbaa !14
  %24 = add nsw i64 %19, -1
  %25 = icmp sgt i64 %19, 1
  br i1 %25, label %18, label %3, !llvm.loop !18

26:                                               ; preds = %28, %15
  %27 = phi i64 [ 0, %15 ], [ %33, %28 ]
  tail call void @print_i64(i64 noundef %27) #2
  ret i32 0

28:                                               ; preds = %15, %28
  %29 = phi ptr addrspace(1) [ %35, %28 ], [ %16, %15 ]
  %30 = phi i64 [ %33, %28 ], [ 0, %15 ]
  %31 = load i64, ptr addrspace(1) %29, align 8, !tbaa !9
  tail call void @print_i64(i64 noundef %31) #2
  %32 = load i64, ptr addrspace(1) %29, align 8, !tbaa !9
  %33 = add nsw i64 %32, %30
  %34 = getelementptr inbounds nuw i8, ptr addrspace(1) %29, i64 8
  %35 = load ptr addrspace(1), ptr addrspace(1) %34, align 8, !tbaa !14
  %36 = icmp eq ptr addrspace(1) %35, null
  br i1 %36, label %26, label %28, !llvm.loop !19
}

declare i64 @read_i64() local_unnamed_addr #1

declare void @print_i64(i64 noundef) local_unnamed_addr #1

declare ptr addrspace(1) @gc_new.struct.Node(i64 noundef) local_unnamed_addr #1

attributes #0 = { nounwind uwtable "min-legal-vector-width"="0" "no-trapping-math"="true" "stack-protector-buffer-size"="8" "target-cpu"="x86-64" "target-features"="+cmov,+cx8,+fxsr,+mmx,+sse,+sse2,+x87" "tune-cpu"="generic" }
attributes #1 = { "no-trapping-math"="true" "stack-protector-buffer-size"="8" "target-cpu"="x86-64" "target-features"="+cmov,+cx8,+fxsr,+mmx,+sse,+sse2,+x87" "tune-cpu"="generic" }
attributes #2 = { nounwind }

!llvm.module.flags = !{!0, !1, !2, !3}
!llvm.ident = !{!4}
!llvm.errno.tbaa = !{!5}

!0 = !{i32 1, !"wchar_size", i32 4}
!1 = !{i32 8, !"PIC Level", i32 2}
!2 = !{i32 7, !"PIE Level", i32 2}
!3 = !{i32 7, !"uwtable", i32 2}
!4 = !{!"clang version 22.1.8"}
!5 = !{!6, !6, i64 0}
!6 = !{!"int", !7, i64 0}
!7 = !{!"omnipotent char", !8, i64 0}
!8 = !{!"Simple C/C++ TBAA"}
!9 = !{!10, !11, i64 0}
!10 = !{!"Node", !11, i64 0, !12, i64 8}
!11 = !{!"long", !7, i64 0}
!12 = !{!"p1 _ZTS4Node", !13, i64 0}
!13 = !{!"any pointer", !7, i64 0}
!14 = !{!10, !12, i64 8}
!15 = distinct !{!15, !16, !17}
!16 = !{!"llvm.loop.mustprogress"}
!17 = !{!"llvm.loop.unroll.disable"}
!18 = distinct !{!18, !16, !17}
!19 = distinct !{!19, !16, !17}
