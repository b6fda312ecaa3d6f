; ModuleID = 'callbacks.c'
source_filename = "callbacks.c"
target datalayout = "e-m:e-p270:32:32-p271:32:32-p272:64:64-i64:64-i128:128-f80:128-n8:16:32:64-S128"
target triple = "x86_64-unknown-linux-gnu"

; Function Attrs: nounwind uwtable
define dso_local noundef i32 @main() local_unnamed_addr gc "statepoint-example" {
  %1 = alloca [2 x i64], align 16
  call void @llvm.lifetime.start.p0(ptr nonnull %1) #5
  call void @fill(ptr noundef nonnull %1) #5
  %2 = call ptr addrspace(1) @gc_new.struct.Node(i64 noundef 1) #5
  %3 = getelementptr inbounds nuw i8, ptr %1, i64 8
  %4 = load i64, ptr %3, align 8, !tbaa !9
  store i64 %4, ptr addrspace(1) %2, align 8, !tbaa !11
  %5 = call i64 @read_i64() #5
  %6 = icmp eq i64 %5, 0
  %7 = select i1 %6, ptr @multiplies, ptr @adds
  %8 = load i64, ptr %1, align 16, !tbaa !9
  %9 = call fastcc i64 @fold(ptr addrspace(1) noundef %2, ptr noundef nonnull %7, i64 noundef %8)
  call void @print_i64(i64 noundef %9) #5
  call void @print_i64(i64 noundef 0) #5
  call void @llvm.lifetime.end.p0(ptr nonnull %1) #5
  ret i32 0
}

; Function Attrs: mustprogress nocallback nofree nosync nounwind willreturn memory(argmem: readwrite)
declare void @llvm.lifetime.start.p0(ptr captures(none)) #1

declare void @fill(ptr noundef) local_unnamed_addr #2

declare ptr addrspace(1) @gc_new.struct.Node(i64 noundef) local_unnamed_addr #2

declare void @print_i64(i64 noundef) local_unnamed_addr #2

; Function Attrs: noinline nounwind uwtable
define internal fastcc i64 @fold(ptr addrspace(1) noundef readonly captures(address_is_null) %0, ptr noundef readonly captures(none) %1, i64 noundef %2) unnamed_addr gc "statepoint-example" {
  %4 = icmp eq ptr addrspace(1) %0, null
  br i1 %4, label %13, label %5

5:                                                ; preds = %3, %5
  %6 = phi i64 [ %9, %5 ], [ %2, %3 ]
  %7 = phi ptr addrspace(1) [ %11, %5 ], [ %0, %3 ]
  %8 = load i64, ptr addrspace(1) %7, align 8, !tbaa !11
  %9 = tail call i64 %1(i64 noundef %6, i64 noundef %8) #5, !callees !15
  %10 = getelementptr inbounds nuw i8, ptr addrspace(1) %7, i64 8
  %11 = load ptr addrspace(1), ptr addrspace(1) %10, align 8, !tbaa !16
  %12 = icmp eq ptr addrspace(1) %11, null
  br i1 %12, label %13, label %5, !llvm.loop !17

13:                                               ; preds = %5, %3
  %14 = phi i64 [ %2, %3 ], [ %9, %5 ]
  ret i64 %14
}

declare i64 @read_i64() local_unnamed_addr #2

; Function Attrs: mustprogress nofree norecurse nosync nounwind willreturn memory(none) uwtable
define internal i64 @adds(i64 noundef %0, i64 noundef %1) gc "statepoint-example" {
  %3 = add nsw i64 %1, %0
  ret i64 %3
}

; Function Attrs: mustprogress nofree norecurse nosync nounwind willreturn memory(none) uwtable
define internal i64 @multiplies(i64 noundef %0, i64 noundef %1) gc "statepoint-example" {
  %3 = mul nsw i64 %1, %0
  ret i64 %3
}

; Function Attrs: mustprogress nocallback nofree nosync nounwind willreturn memory(argmem: readwrite)
declare void @llvm.lifetime.end.p0(ptr captures(none)) #1

attributes #0 = { nounwind uwtable "min-legal-vector-width"="0" "no-trapping-math"="true" "stack-protector-buffer-size"="8" "target-cpu"="x86-64" "target-features"="+cmov,+cx8,+fxsr,+mmx,+sse,+sse2,+x87" "tune-cpu"="generic" }
attributes #1 = { mustprogress nocallback nofree nosync nounwind willreturn memory(argmem: readwrite) }
attributes #2 = { "no-trapping-math"="true" "stack-protector-buffer-size"="8" "target-cpu"="x86-64" "target-features"="+cmov,+cx8,+fxsr,+mmx,+sse,+sse2,+x87" "tune-cpu"="generic" }
attributes #3 = { noinline nounwind uwtable "min-legal-vector-width"="0" "no-trapping-math"="true" "stack-protector-buffer-size"="8" "target-cpu"="x86-64" "target-features"="+cmov,+cx8,+fxsr,+mmx,+sse,+sse2,+x87" "tune-cpu"="generic" }
attributes #4 = { mustprogress nofree norecurse nosync nounwind willreturn memory(none) uwtable "min-legal-vector-width"="0" "no-trapping-math"="true" "stack-protector-buffer-size"="8" "target-cpu"="x86-64" "target-features"="+cmov,+cx8,+fxsr,+mmx,+sse,+sse2,+x87" "tune-cpu"="generic" }
attributes #5 = { nounwind }

!llvm.module.flags = !{!0, !1, !2, !3}
!llvm.ident = !{!4}
!llvm.errno.tbaa = !{!5}

!0 = !{i32 1, !"wchar_size", i32 4}
!1 = !{i32 8, !"PIC Level", i32 2}
!2 = !{i32 7, !"PIE Level", i32 2}
!3 = !{i32 7, !"uwtable", i32 2}
!4 = !{!"clang version 22.1.8"}
!5 = !{!6, !6, i64 0}
!6 = !{!"int", !7, i64 0}
!7 = !{!"omnipotent char", !8, i64 0}
!8 = !{!"Simple C/C++ TBAA"}
!9 = !{!10, !10, i64 0}
!10 = !{!"long", !7, i64 0}
!11 = !{!12, !10, i64 0}
!12 = !{!"Node", !10, i64 0, !13, i64 8}
!13 = !{!"p1 _ZTS4Node", !14, i64 0}
!14 = !{!"any pointer", !7, i64 0}
!15 = !{ptr @adds, ptr @multiplies}
!16 = !{!12, !13, i64 8}
!17 = distinct !{!17, !18, !19}
!18 = !{!"llvm.loop.mustprogress"}
!19 = !{!"llvm.loop.unroll.disable"}
