; ModuleID = 'merge_sort.c'
source_filename = "merge_sort.c"
target datalayout = "e-m:e-p270:32:32-p271:32:32-p272:64:64-i64:64-i128:128-f80:128-n8:16:32:64-S128"
target triple = "x86_64-unknown-linux-gnu"

; Function Attrs: nounwind uwtable
define dso_local noundef i32 @main() local_unnamed_addr gc "statepoint-example" {
  %1 = tail call i64 @read_i64() #2
  %2 = icmp sgt i64 %1, 0
  br i1 %2, label %7, label %3

3:                                                ; preds = %7, %0
  %4 = phi ptr addrspace(1) [ null, %0 ], [ %11, %7 ]
  %5 = tail call fastcc ptr addrspace(1) @sorted(ptr addrspace(1) noundef %4)
  %6 = icmp eq ptr addrspace(1) %5, null
  br i1 %6, label %21, label %15

7:                                                ; preds = %0, %7
  %8 = phi i64 [ %13, %7 ], [ %1, %0 ]
  %9 = phi ptr addrspace(1) [ %11, %7 ], [ null, %0 ]
  %10 = tail call i64 @read_i64() #2
  %11 = tail call noundef ptr addrspace(1) @gc_new.struct.Node(i64 noundef 1) #2
  store i64 %10, ptr addrspace(1) %11, align 8, !tbaa !9
  %12 = getelementptr inbounds nuw i8, ptr addrspace(1) %11, i64 8
  store ptr addrspace(1) %9, ptr addrspace(1) %12, align 8, !tbaa !14
  %13 = add nsw i64 %8, -1
  %14 = icmp sgt i64 %8, 1
  br i1 %14, label %7, label %3, !llvm.loop !15

15:                                               ; preds = %3, %15
  %16 = phi ptr addrspace(1) [ %19, %15 ], [ %5, %3 ]
  %17 = load i64, ptr addrspace(1) %16, align 8, !tbaa !9
  tail call void @print_i64(i64 noundef %17) #2
  %18 = getelementptr inbounds nuw i8, ptr addrspace(1) %16, i64 8
  %19 = load ptr addrspace(1), ptr addrspace(1) %18, align 8, !tbaa !14
  %20 = icmp eq ptr addrspace(1) %19, null
  br i1 %20, label %21, label %15, !llvm.loop !18

21:                                               ; preds = %15, %3
  ret i32 0
}

declare i64 @read_i64() local_unnamed_addr #1

; Function Attrs: nounwind uwtable
define internal fastcc noundef ptr addrspace(1) @sorted(ptr addrspace(1) noundef readonly captures(address_is_null, ret: address, provenance) %0) unnamed_addr gc "statepoint-example" {
  %2 = icmp eq ptr addrspace(1) %0, null
  br i1 %2, label %17, label %3

3:                                                ; preds = %1
  %4 = getelementptr inbounds nuw i8, ptr addrspace(1) %0, i64 8
  %5 = load ptr addrspace(1), ptr addrspace(1) %4, align 8, !tbaa !14
  %6 = icmp eq ptr addrspace(1) %5, null
  br i1 %6, label %17, label %7

7:                                                ; preds = %3, %7
  %8 = phi ptr addrspace(1) [ %12, %7 ], [ null, %3 ]
  %9 = phi ptr addrspace(1) [ %8, %7 ], [ null, %3 ]
  %10 = phi ptr addrspace(1) [ %15, %7 ], [ %0, %3 ]
  %11 = load i64, ptr addrspace(1) %10, align 8, !tbaa !9
  %12 = tail call noundef ptr addrspace(1) @gc_new.struct.Node(i64 noundef 1) #2
  store i64 %11, ptr addrspace(1) %12, align 8, !tbaa !9
  %13 = getelementptr inbounds nuw i8, ptr addrspace(1) %12, i64 8
  store ptr addrspace(1) %9, ptr addrspace(1) %13, align 8, !tbaa !14
  %14 = getelementptr inbounds nuw i8, ptr addrspace(1) %10, i64 8
  %15 = load ptr addrspace(1), ptr addrspace(1) %14, align 8, !tbaa !14
  %16 = icmp eq ptr addrspace(1) %15, null
  br i1 %16, label %19, label %7, !llvm.loop !19

17:                                               ; preds = %3, %1, %19
  %18 = phi ptr addrspace(1) [ %22, %19 ], [ null, %1 ], [ %0, %3 ]
  ret ptr addrspace(1) %18

19:                                               ; preds = %7
  %20 = tail call fastcc ptr addrspace(1) @sorted(ptr addrspace(1) noundef %8)
  %21 = tail call fastcc ptr addrspace(1) @sorted(ptr addrspace(1) noundef %12)
  %22 = tail call fastcc ptr addrspace(1) @merged(ptr addrspace(1) noundef %20, ptr addrspace(1) noundef %21)
  br label %17
}

declare void @print_i64(i64 noundef) local_unnamed_addr #1

declare ptr addrspace(1) @gc_new.struct.Node(i64 noundef) local_unnamed_addr #1

; Function Attrs: nounwind uwtable
define internal fastcc noundef ptr addrspace(1) @merged(ptr addrspace(1) noundef %0, ptr addrspace(1) noundef %1) unnamed_addr gc "statepoint-example" {
  %3 = icmp eq ptr addrspace(1) %0, null
  br i1 %3, label %23, label %4

4:                                                ; preds = %2
  %5 = icmp eq ptr addrspace(1) %1, null
  br i1 %5, label %23, label %6

6:                                                ; preds = %4
  %7 = load i64, ptr addrspace(1) %0, align 8, !tbaa !9
  %8 = load i64, ptr addrspace(1) %1, align 8, !tbaa !9
  %9 = icmp sgt i64 %7, %8
  br i1 %9, label %14, label %10

10:                                               ; preds = %6
  %11 = getelementptr inbounds nuw i8, ptr addrspace(1) %0, i64 8
  %12 = load ptr addrspace(1), ptr addrspace(1) %11, align 8, !tbaa !14
  %13 = tail call fastcc ptr addrspace(1) @merged(ptr addrspace(1) noundef %12, ptr addrspace(1) noundef nonnull %1)
  br label %18

14:                                               ; preds = %6
  %15 = getelementptr inbounds nuw i8, ptr addrspace(1) %1, i64 8
  %16 = load ptr addrspace(1), ptr addrspace(1) %15, align 8, !tbaa !14
  %17 = tail call fastcc ptr addrspace(1) @merged(ptr addrspace(1) noundef nonnull %0, ptr addrspace(1) noundef %16)
  br label %18

18:                                               ; preds = %10, %14
  %19 = phi i64 [ %8, %14 ], [ %7, %10 ]
  %20 = phi ptr addrspace(1) [ %17, %14 ], [ %13, %10 ]
  %21 = tail call noundef ptr addrspace(1) @gc_new.struct.Node(i64 noundef 1) #2
  store i64 %19, ptr addrspace(1) %21, align 8, !tbaa !9
  %22 = getelementptr inbounds nuw i8, ptr addrspace(1) %21, i64 8
  store ptr addrspace(1) %20, ptr addrspace(1) %22, align 8, !tbaa !14
  br label %23

23:                                               ; preds = %18, %4, %2
  %24 = phi ptr addrspace(1) [ %1, %2 ], [ %0, %4 ], [ %21, %18 ]
  ret ptr addrspace(1) %24
}

attributes #0 = { nounwind uwtable "min-legal-vector-width"="0" "no-trapping-math"="true" "stack-protector-buffer-size"="8" "target-cpu"="x86-64" "target-features"="+cmov,+cx8,+fxsr,+mmx,+sse,+sse2,+x87" "tune-cpu"="generic" }
attributes #1 = { "no-trapping-math"="true" "stack-protector-buffer-size"="8" "target-cpu"="x86-64" "target-features"="+cmov,+cx8,+fxsr,+mmx,+sse,+sse2,+x87" "tune-cpu"="generic" }
attributes #2 = { nounwind }

!llvm.module.flags = !{!0, !1, !2, !3}
!llvm.ident = !{!4}
!llvm.errno.tbaa = !{!5}

!0 = !{i32 1, !"wchar_size", i32 4}
!1 = !{i32 8, !"PIC Level", i32 2}
!2 = !{i32 7, !"PIE Level", i32 2}
!3 = !{i32 7, !"uwtable", i32 2}
!4 = !{!"clang version 22.1.8"}
!5 = !{!6, !6, i64 0}
!6 = !{!"int", !7, i64 0}
!7 = !{!"omnipotent char", !8, i64 0}
!8 = !{!"Simple C/C++ TBAA"}
!9 = !{!10, !11, i64 0}
!10 = !{!"Node", !11, i64 0, !12, i64 8}
!11 = !{!"long", !7, i64 0}
!12 = !{!"p1 _ZTS4Node", !13, i64 0}
!13 = !{!"any pointer", !7, i64 0}
!14 = !{!10, !12, i64 8}
!15 = distinct !{!15, !16, !17}
!16 = !{!"llvm.loop.mustprogress"}
!17 = !{!"llvm.loop.unroll.disable"}
!18 = distinct !{!18, !16, !17}
!19 = distinct !{!19, !16, !17}
