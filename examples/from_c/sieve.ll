; ModuleID = 'sieve.c'
source_filename = "sieve.c"
target datalayout = "e-m:e-p270:32:32-p271:32:32-p272:64:64-i64:64-i128:128-f80:128-n8:16:32:64-S128"
target triple = "x86_64-unknown-linux-gnu"

%struct.Word = type { i64 }

; Function Attrs: nounwind uwtable
define dso_local noundef i32 @main() local_unnamed_addr gc "statepoint-example" {
  %1 = tail call i64 @read_i64() #2
  %2 = sdiv i64 %1, 64
  %3 = add nsw i64 %2, 1
  %4 = tail call ptr addrspace(1) @gc_new.struct.Word(i64 noundef %3) #2
  %5 = icmp sgt i64 %1, 4
  br i1 %5, label %8, label %6

6:                                                ; preds = %30, %0
  %7 = icmp sgt i64 %1, 2
  br i1 %7, label %36, label %34

8:                                                ; preds = %0, %30
  %9 = phi i64 [ %32, %30 ], [ 4, %0 ]
  %10 = phi i64 [ %31, %30 ], [ 2, %0 ]
  %11 = lshr i64 %10, 6
  %12 = getelementptr inbounds nuw %struct.Word, ptr addrspace(1) %4, i64 %11
  %13 = load i64, ptr addrspace(1) %12, align 8, !tbaa !9
  %14 = and i64 %10, 63
  %15 = shl nuw i64 1, %14
  %16 = and i64 %13, %15
  %17 = icmp eq i64 %16, 0
  %18 = icmp slt i64 %9, %1
  %19 = and i1 %17, %18
  br i1 %19, label %20, label %30

20:                                               ; preds = %8, %20
  %21 = phi i64 [ %28, %20 ], [ %9, %8 ]
  %22 = and i64 %21, 63
  %23 = shl nuw i64 1, %22
  %24 = lshr i64 %21, 6
  %25 = getelementptr inbounds nuw %struct.Word, ptr addrspace(1) %4, i64 %24
  %26 = load i64, ptr addrspace(1) %25, align 8, !tbaa !9
  %27 = or i64 %26, %23
  store i64 %27, ptr addrspace(1) %25, align 8, !tbaa !9
  %28 = add nuw nsw i64 %21, %10
  %29 = icmp slt i64 %28, %1
  br i1 %29, label %20, label %30, !llvm.loop !12

30:                                               ; preds = %20, %8
  %31 = add nuw nsw i64 %10, 1
  %32 = mul nuw nsw i64 %31, %31
  %33 = icmp slt i64 %32, %1
  br i1 %33, label %8, label %6, !llvm.loop !15

34:                                               ; preds = %36, %6
  %35 = phi i64 [ 0, %6 ], [ %46, %36 ]
  tail call void @print_i64(i64 noundef %35) #2
  ret i32 0

36:                                               ; preds = %6, %36
  %37 = phi i64 [ %47, %36 ], [ 2, %6 ]
  %38 = phi i64 [ %46, %36 ], [ 0, %6 ]
  %39 = lshr i64 %37, 6
  %40 = getelementptr inbounds nuw %struct.Word, ptr addrspace(1) %4, i64 %39
  %41 = load i64, ptr addrspace(1) %40, align 8, !tbaa !9
  %42 = and i64 %37, 63
  %43 = xor i64 %41, -1
  %44 = lshr i64 %43, %42
  %45 = and i64 %44, 1
  %46 = add nuw nsw i64 %45, %38
  %47 = add nuw nsw i64 %37, 1
  %48 = icmp eq i64 %47, %1
  br i1 %48, label %34, label %36, !llvm.loop !16
}

declare i64 @read_i64() local_unnamed_addr #1

declare ptr addrspace(1) @gc_new.struct.Word(i64 noundef) local_unnamed_addr #1

declare void @print_i64(i64 noundef) local_unnamed_addr #1

attributes #0 = { nounwind uwtable "min-legal-vector-width"="0" "no-trapping-math"="true" "stack-protector-buffer-size"="8" "target-cpu"="x86-64" "target-features"="+cmov,+cx8,+fxsr,+mmx,+sse,+sse2,+x87" "tune-cpu"="generic" }
attributes #1 = { "no-trapping-math"="true" "stack-protector-buffer-size"="8" "target-cpu"="x86-64" "target-features"="+cmov,+cx8,+fxsr,+mmx,+sse,+sse2,+x87" "tune-cpu"="generic" }
attributes #2 = { nounwind }

!llvm.module.flags = !{!0, !1, !2, !3}
!llvm.ident = !{!4}
!llvm.errno.tbaa = !{!5}

!0 = !{i32 1, !"wchar_size", i32 4}
!1 = !{i32 8, !"PIC Level", i32 2}
!2 = !{i32 7, !"PIE Level", i32 2}
!3 = !{i32 7, !"uwtable", i32 2}
!4 = !{!"clang version 22.1.8"}
!5 = !{!6, !6, i64 0}
!6 = !{!"int", !7, i64 0}
!7 = !{!"omnipotent char", !8, i64 0}
!8 = !{!"Simple C/C++ TBAA"}
!9 = !{!10, !11, i64 0}
!10 = !{!"Word", !11, i64 0}
!11 = !{!"long", !7, i64 0}
!12 = distinct !{!12, !13, !14}
!13 = !{!"llvm.loop.mustprogress"}
!14 = !{!"llvm.loop.unroll.disable"}
!15 = distinct !{!15, !13, !14}
!16 = distinct !{!16, !13, !14}
