; ModuleID = 'averages.c'
source_filename = "averages.c"
target datalayout = "e-m:e-p270:32:32-p271:32:32-p272:64:64-i64:64-i128:128-f80:128-n8:16:32:64-S128"
target triple = "x86_64-unknown-linux-gnu"

%struct.Sample = type { i64 }

@seen = dso_local local_unnamed_addr global i64 0, align 8

; Function Attrs: nounwind uwtable
define dso_local noundef i32 @main() local_unnamed_addr gc "statepoint-example" {
  %1 = tail call i64 @read_i64() #2
  %2 = tail call ptr addrspace(1) @gc_new.struct.Sample(i64 noundef %1) #2
  %3 = icmp sgt i64 %1, 0
  br i1 %3, label %22, label %4

4:                                                ; preds = %22, %0
  %5 = load i64, ptr @seen, align 8, !tbaa !9
  %6 = add nsw i64 %5, %1
  store i64 %6, ptr @seen, align 8, !tbaa !9
  %7 = icmp sgt i64 %1, 0
  br i1 %7, label %8, label %17

8:                                                ; preds = %4, %8
  %9 = phi i64 [ %15, %8 ], [ 0, %4 ]
  %10 = phi double [ %14, %8 ], [ 0.000000e+00, %4 ]
  %11 = getelementptr inbounds nuw %struct.Sample, ptr addrspace(1) %2, i64 %9
  %12 = load i64, ptr addrspace(1) %11, align 8, !tbaa !11
  %13 = sitofp i64 %12 to double
  %14 = fadd double %10, %13
  %15 = add nuw nsw i64 %9, 1
  %16 = icmp eq i64 %15, %1
  br i1 %16, label %17, label %8, !llvm.loop !13

17:                                               ; preds = %8, %4
  %18 = phi double [ 0.000000e+00, %4 ], [ %14, %8 ]
  %19 = sitofp i64 %1 to double
  %20 = fdiv double %18, %19
  %21 = fptosi double %20 to i64
  tail call void @print_i64(i64 noundef %21) #2
  ret i32 0

22:                                               ; preds = %0, %22
  %23 = phi i64 [ %26, %22 ], [ 0, %0 ]
  %24 = tail call i64 @read_i64() #2
  %25 = getelementptr inbounds nuw %struct.Sample, ptr addrspace(1) %2, i64 %23
  store i64 %24, ptr addrspace(1) %25, align 8, !tbaa !11
  %26 = add nuw nsw i64 %23, 1
  %27 = icmp eq i64 %26, %1
  br i1 %27, label %4, label %22, !llvm.loop !16
}

declare i64 @read_i64() local_unnamed_addr #1

declare ptr addrspace(1) @gc_new.struct.Sample(i64 noundef) local_unnamed_addr #1

declare void @print_i64(i64 noundef) local_unnamed_addr #1

attributes #0 = { nounwind uwtable "min-legal-vector-width"="0" "no-trapping-math"="true" "stack-protector-buffer-size"="8" "target-cpu"="x86-64" "target-features"="+cmov,+cx8,+fxsr,+mmx,+sse,+sse2,+x87" "tune-cpu"="generic" }
attributes #1 = { "no-trapping-math"="true" "stack-protector-buffer-size"="8" "target-cpu"="x86-64" "target-features"="+cmov,+cx8,+fxsr,+mmx,+sse,+sse2,+x87" "tune-cpu"="generic" }
attributes #2 = { nounwind }

!llvm.module.flags = !{!0, !1, !2, !3}
!llvm.ident = !{!4}
!llvm.errno.tbaa = !{!5}

!0 = !{i32 1, !"wchar_size", i32 4}
!1 = !{i32 8, !"PIC Level", i32 2}
!2 = !{i32 7, !"PIE Level", i32 2}
!3 = !{i32 7, !"uwtable", i32 2}
!4 = !{!"clang version 22.1.8"}
!5 = !{!6, !6, i64 0}
!6 = !{!"int", !7, i64 0}
!7 = !{!"omnipotent char", !8, i64 0}
!8 = !{!"Simple C/C++ TBAA"}
!9 = !{!10, !10, i64 0}
!10 = !{!"long", !7, i64 0}
!11 = !{!12, !10, i64 0}
!12 = !{!"Sample", !10, i64 0}
!13 = distinct !{!13, !14, !15}
!14 = !{!"llvm.loop.mustprogress"}
!15 = !{!"llvm.loop.unroll.disable"}
!16 = distinct !{!16, !14, !15}
