; ModuleID = 'largest.c'
source_filename = "largest.c"
target datalayout = "e-m:e-p270:32:32-p271:32:32-p272:64:64-i64:64-i128:128-f80:128-n8:16:32:64-S128"
target triple = "x86_64-pc-linux-gnu"

%struct.Cell = type { i64, ptr addrspace(1) }

; Function Attrs: nounwind uwtable
define dso_local noundef i64 @main() local_unnamed_addr gc "statepoint-example" {
  %1 = tail call i64 @read_i64() #2
  %2 = tail call ptr addrspace(1) @gc_new.struct.Cell(i64 noundef %1) #2
  %3 = icmp sgt i64 %1, 0
  br i1 %3, label %7, label %4

4:                                                ; preds = %7, %0
  %5 = phi ptr addrspace(1) [ %2, %0 ], [ %17, %7 ]
  %6 = load i64, ptr addrspace(1) %5, align 8, !tbaa !9
  tail call void @print_i64(i64 noundef %6) #2
  ret i64 %1

7:                                                ; preds = %0, %7
  %8 = phi ptr addrspace(1) [ %17, %7 ], [ %2, %0 ]
  %9 = phi i64 [ %18, %7 ], [ 0, %0 ]
  %10 = getelementptr inbounds nuw %struct.Cell, ptr addrspace(1) %2, i64 %9
  %11 = tail call i64 @read_i64() #2
  store i64 %11, ptr addrspace(1) %10, align 8, !tbaa !9
  %12 = tail call ptr addrspace(1) @gc_new.struct.Cell(i64 noundef 1) #2
  %13 = getelementptr inbounds nuw i8, ptr addrspace(1) %10, i64 8
  store ptr addrspace(1) %12, ptr addrspace(1) %13, align 8, !tbaa !14
  %14 = load i64, ptr addrspace(1) %10, align 8, !tbaa !9
  %15 = load i64, ptr addrspace(1) %8, align 8, !tbaa !9
  %16 = icmp sgt i64 %14, %15
  %17 = select i1 %16, ptr addrspace(1) %10, ptr addrspace(1) %8
  %18 = add nuw nsw i64 %9, 1
  %19 = icmp eq i64 %18, %1
  br i1 %19, label %4, label %7, !llvm.loop !15
}

declare i64 @read_i64() local_unnamed_addr #1

declare ptr addrspace(1) @gc_new.struct.Cell(i64 noundef) local_unnamed_addr #1

declare void @print_i64(i64 noundef) local_unnamed_addr #1

attributes #0 = { nounwind uwtable "min-legal-vector-width"="0" "no-trapping-math"="true" "stack-protector-buffer-size"="8" "target-cpu"="x86-64" "target-features"="+cmov,+cx8,+fxsr,+mmx,+sse,+sse2,+x87" "tune-cpu"="generic" }
attributes #1 = { "no-trapping-math"="true" "stack-protector-buffer-size"="8" "target-cpu"="x86-64" "target-features"="+cmov,+cx8,+fxsr,+mmx,+sse,+sse2,+x87" "tune-cpu"="generic" }
attributes #2 = { nounwind }

!llvm.module.flags = !{!0, !1, !2, !3}
!llvm.ident = !{!4}
!llvm.errno.tbaa = !{!5}

!0 = !{i32 1, !"wchar_size", i32 4}
!1 = !{i32 8, !"PIC Level", i32 2}
!2 = !{i32 7, !"PIE Level", i32 2}
!3 = !{i32 7, !"uwtable", i32 2}
!4 = !{!"Debian clang version 22.1.8 (1~deb12u1)"}
!5 = !{!6, !6, i64 0}
!6 = !{!"int", !7, i64 0}
!7 = !{!"omnipotent char", !8, i64 0}
!8 = !{!"Simple C/C++ TBAA"}
!9 = !{!10, !11, i64 0}
!10 = !{!"Cell", !11, i64 0, !12, i64 8}
!11 = !{!"long", !7, i64 0}
!12 = !{!"p1 _ZTS4Cell", !13, i64 0}
!13 = !{!"any pointer", !7, i64 0}
!14 = !{!10, !12, i64 8}
!15 = distinct !{!15, !16, !17}
!16 = !{!"llvm.loop.mustprogress"}
!17 = !{!"llvm.loop.unroll.disable"}
