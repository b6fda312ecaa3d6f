; ModuleID = 'ring_buffer.c'
source_filename = "ring_buffer.c"
target datalayout = "e-m:e-p270:32:32-p271:32:32-p272:64:64-i64:64-i128:128-f80:128-n8:16:32:64-S128"
target triple = "x86_64-unknown-linux-gnu"

%struct.Number = type { i64 }

; Function Attrs: nounwind uwtable
define dso_local noundef i32 @main() local_unnamed_addr gc "statepoint-example" {
  %1 = tail call ptr addrspace(1) @gc_new.struct.Queue(i64 noundef 1) #2
  %2 = getelementptr inbounds nuw i8, ptr addrspace(1) %1, i64 16
  store i64 2, ptr addrspace(1) %2, align 8, !tbaa !9
  %3 = tail call ptr addrspace(1) @gc_new.struct.Number(i64 noundef 2) #2
  %4 = getelementptr inbounds nuw i8, ptr addrspace(1) %1, i64 24
  store ptr addrspace(1) %3, ptr addrspace(1) %4, align 8, !tbaa !14
  %5 = getelementptr inbounds nuw i8, ptr addrspace(1) %1, i64 8
  %6 = getelementptr inbounds nuw i8, ptr addrspace(1) %1, i64 8
  %7 = tail call i64 @read_i64() #2
  %8 = icmp eq i64 %7, 0
  br i1 %8, label %61, label %9

9:                                                ; preds = %0, %58
  %10 = phi i64 [ %59, %58 ], [ %7, %0 ]
  %11 = icmp sgt i64 %10, 0
  br i1 %11, label %12, label %46

12:                                               ; preds = %9
  %13 = load i64, ptr addrspace(1) %6, align 8, !tbaa !15
  %14 = load i64, ptr addrspace(1) %2, align 8, !tbaa !9
  %15 = icmp eq i64 %13, %14
  br i1 %15, label %16, label %37

16:                                               ; preds = %12
  %17 = shl nsw i64 %14, 1
  %18 = tail call ptr addrspace(1) @gc_new.struct.Number(i64 noundef %17) #2
  %19 = load i64, ptr addrspace(1) %6, align 8, !tbaa !15
  %20 = icmp sgt i64 %19, 0
  br i1 %20, label %21, label %25

21:                                               ; preds = %16
  %22 = load ptr addrspace(1), ptr addrspace(1) %4, align 8, !tbaa !14
  %23 = load i64, ptr addrspace(1) %1, align 8, !tbaa !16
  %24 = load i64, ptr addrspace(1) %2, align 8, !tbaa !9
  br label %28

25:                                               ; preds = %28, %16
  store ptr addrspace(1) %18, ptr addrspace(1) %4, align 8, !tbaa !14
  store i64 0, ptr addrspace(1) %1, align 8, !tbaa !16
  %26 = load i64, ptr addrspace(1) %2, align 8, !tbaa !9
  %27 = shl nsw i64 %26, 1
  store i64 %27, ptr addrspace(1) %2, align 8, !tbaa !9
  br label %37

28:                                               ; preds = %28, %21
  %29 = phi i64 [ 0, %21 ], [ %35, %28 ]
  %30 = add nsw i64 %29, %23
  %31 = srem i64 %30, %24
  %32 = getelementptr inbounds %struct.Number, ptr addrspace(1) %22, i64 %31
  %33 = load i64, ptr addrspace(1) %32, align 8, !tbaa !17
  %34 = getelementptr inbounds nuw %struct.Number, ptr addrspace(1) %18, i64 %29
  store i64 %33, ptr addrspace(1) %34, align 8, !tbaa !17
  %35 = add nuw nsw i64 %29, 1
  %36 = icmp eq i64 %35, %19
  br i1 %36, label %25, label %28, !llvm.loop !19

37:                                               ; preds = %12, %25
  %38 = load ptr addrspace(1), ptr addrspace(1) %4, align 8, !tbaa !14
  %39 = load i64, ptr addrspace(1) %1, align 8, !tbaa !16
  %40 = load i64, ptr addrspace(1) %6, align 8, !tbaa !15
  %41 = add nsw i64 %40, %39
  %42 = load i64, ptr addrspace(1) %2, align 8, !tbaa !9
  %43 = srem i64 %41, %42
  %44 = getelementptr inbounds %struct.Number, ptr addrspace(1) %38, i64 %43
  store i64 %10, ptr addrspace(1) %44, align 8, !tbaa !17
  %45 = add nsw i64 %40, 1
  store i64 %45, ptr addrspace(1) %6, align 8, !tbaa !15
  br label %58

46:                                               ; preds = %9
  %47 = load i64, ptr addrspace(1) %5, align 8, !tbaa !15
  %48 = icmp eq i64 %47, 0
  br i1 %48, label %58, label %49

49:                                               ; preds = %46
  %50 = load ptr addrspace(1), ptr addrspace(1) %4, align 8, !tbaa !14
  %51 = load i64, ptr addrspace(1) %1, align 8, !tbaa !16
  %52 = getelementptr inbounds %struct.Number, ptr addrspace(1) %50, i64 %51
  %53 = load i64, ptr addrspace(1) %52, align 8, !tbaa !17
  %54 = add nsw i64 %51, 1
  %55 = load i64, ptr addrspace(1) %2, align 8, !tbaa !9
  %56 = srem i64 %54, %55
  store i64 %56, ptr addrspace(1) %1, align 8, !tbaa !16
  %57 = add nsw i64 %47, -1
  store i64 %57, ptr addrspace(1) %5, align 8, !tbaa !15
  tail call void @print_i64(i64 noundef %53) #2
  br label %58

58:                                               ; preds = %37, %49, %46
  %59 = tail call i64 @read_i64() #2
  %60 = icmp eq i64 %59, 0
  br i1 %60, label %61, label %9

61:                                               ; preds = %58, %0
  %62 = getelementptr inbounds nuw i8, ptr addrspace(1) %1, i64 8
  %63 = load i64, ptr addrspace(1) %62, align 8, !tbaa !15
  tail call void @print_i64(i64 noundef %63) #2
  %64 = load i64, ptr addrspace(1) %2, align 8, !tbaa !9
  tail call void @print_i64(i64 noundef %64) #2
  ret i32 0
}

declare ptr addrspace(1) @gc_new.struct.Queue(i64 noundef) local_unnamed_addr #1

declare ptr addrspace(1) @gc_new.struct.Number(i64 noundef) local_unnamed_addr #1

declare i64 @read_i64() local_unnamed_addr #1

declare void @print_i64(i64 noundef) local_unnamed_addr #1

attributes #0 = { nounwind uwtable "min-legal-vector-width"="0" "no-trapping-math"="true" "stack-protector-buffer-size"="8" "target-cpu"="x86-64" "target-features"="+cmov,+cx8,+fxsr,+mmx,+sse,+sse2,+x87" "tune-cpu"="generic" }
attributes #1 = { "no-trapping-math"="true" "stack-protector-buffer-size"="8" "target-cpu"="x86-64" "target-features"="+cmov,+cx8,+fxsr,+mmx,+sse,+sse2,+x87" "tune-cpu"="generic" }
attributes #2 = { nounwind }

!llvm.module.flags = !{!0, !1, !2, !3}
!llvm.ident = !{!4}
!llvm.errno.tbaa = !{!5}

!0 = !{i32 1, !"wchar_size", i32 4}
!1 = !{i32 8, !"PIC Level", i32 2}
!2 = !{i32 7, !"PIE Level", i32 2}
!3 = !{i32 7, !"uwtable", i32 2}
!4 = !{!"clang version 22.1.8"}
!5 = !{!6, !6, i64 0}
!6 = !{!"int", !7, i64 0}
!7 = !{!"omnipotent char", !8, i64 0}
!8 = !{!"Simple C/C++ TBAA"}
!9 = !{!10, !11, i64 16}
!10 = !{!"Queue", !11, i64 0, !11, i64 8, !11, i64 16, !12, i64 24}
!11 = !{!"long", !7, i64 0}
!12 = !{!"p1 _ZTS6Number", !13, i64 0}
!13 = !{!"any pointer", !7, i64 0}
!14 = !{!10, !12, i64 24}
!15 = !{!10, !11, i64 8}
!16 = !{!10, !11, i64 0}
!17 = !{!18, !11, i64 0}
!18 = !{!"Number", !11, i64 0}
!19 = distinct !{!19, !20, !21}
!20 = !{!"llvm.loop.mustprogress"}
!21 = !{!"llvm.loop.unroll.disable"}
