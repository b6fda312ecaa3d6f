; ModuleID = 'tree.c'
source_filename = "tree.c"
target datalayout = "e-m:e-p270:32:32-p271:32:32-p272:64:64-i64:64-i128:128-f80:128-n8:16:32:64-S128"
target triple = "x86_64-unknown-linux-gnu"

; Function Attrs: nounwind uwtable
define dso_local noundef i32 @main() local_unnamed_addr gc "statepoint-example" {
  %1 = tail call i64 @read_i64() #4
  %2 = icmp sgt i64 %1, 0
  br i1 %2, label %6, label %3

3:                                                ; preds = %6, %0
  %4 = phi ptr addrspace(1) [ null, %0 ], [ %10, %6 ]
  %5 = tail call fastcc i64 @depth(ptr addrspace(1) noundef %4)
  tail call void @print_i64(i64 noundef %5) #4
  tail call fastcc void @print_keys(ptr addrspace(1) noundef %4, i64 noundef 0)
  ret i32 0

6:                                                ; preds = %0, %6
  %7 = phi i64 [ %11, %6 ], [ %1, %0 ]
  %8 = phi ptr addrspace(1) [ %10, %6 ], [ null, %0 ]
  %9 = tail call i64 @read_i64() #4
  %10 = tail call fastcc ptr addrspace(1) @with_key(ptr addrspace(1) noundef %8, i64 noundef %9)
  %11 = add nsw i64 %7, -1
  %12 = icmp sgt i64 %7, 1
  br i1 %12, label %6, label %3, !llvm.loop !9
}

declare i64 @read_i64() local_unnamed_addr #1

; Function Attrs: nounwind uwtable
define internal fastcc noundef ptr addrspace(1) @with_key(ptr addrspace(1) noundef captures(address_is_null, ret: address, provenance) %0, i64 noundef %1) unnamed_addr gc "statepoint-example" {
  %3 = icmp eq ptr addrspace(1) %0, null
  br i1 %3, label %4, label %6

4:                                                ; preds = %2
  %5 = tail call ptr addrspace(1) @gc_new.struct.Tree(i64 noundef 1) #4
  store i64 %1, ptr addrspace(1) %5, align 8, !tbaa !12
  br label %9

6:                                                ; preds = %2
  %7 = load i64, ptr addrspace(1) %0, align 8, !tbaa !12
  %8 = icmp slt i64 %1, %7
  br i1 %8, label %11, label %15

9:                                                ; preds = %4, %15, %17, %11
  %10 = phi ptr addrspace(1) [ %0, %11 ], [ %0, %17 ], [ %5, %4 ], [ %0, %15 ]
  ret ptr addrspace(1) %10

11:                                               ; preds = %6
  %12 = getelementptr inbounds nuw i8, ptr addrspace(1) %0, i64 8
  %13 = load ptr addrspace(1), ptr addrspace(1) %12, align 8, !tbaa !17
  %14 = tail call fastcc ptr addrspace(1) @with_key(ptr addrspace(1) noundef %13, i64 noundef %1)
  store ptr addrspace(1) %14, ptr addrspace(1) %12, align 8, !tbaa !17
  br label %9

15:                                               ; preds = %6
  %16 = icmp sgt i64 %1, %7
  br i1 %16, label %17, label %9

17:                                               ; preds = %15
  %18 = getelementptr inbounds nuw i8, ptr addrspace(1) %0, i64 16
  %19 = load ptr addrspace(1), ptr addrspace(1) %18, align 8, !tbaa !18
  %20 = tail call fastcc ptr addrspace(1) @with_key(ptr addrspace(1) noundef %19, i64 noundef %1)
  store ptr addrspace(1) %20, ptr addrspace(1) %18, align 8, !tbaa !18
  br label %9
}

declare void @print_i64(i64 noundef) local_unnamed_addr #1

; Function Attrs: nofree nosync nounwind memory(read, inaccessiblemem: none, target_mem0: none, target_mem1: none) uwtable
define internal fastcc i64 @depth(ptr addrspace(1) noundef readonly captures(address_is_null) %0) unnamed_addr gc "statepoint-example" {
  %2 = icmp eq ptr addrspace(1) %0, null
  br i1 %2, label %3, label %5

3:                                                ; preds = %1, %5
  %4 = phi i64 [ %13, %5 ], [ 0, %1 ]
  ret i64 %4

5:                                                ; preds = %1
  %6 = getelementptr inbounds nuw i8, ptr addrspace(1) %0, i64 8
  %7 = load ptr addrspace(1), ptr addrspace(1) %6, align 8, !tbaa !17
  %8 = tail call fastcc i64 @depth(ptr addrspace(1) noundef %7)
  %9 = getelementptr inbounds nuw i8, ptr addrspace(1) %0, i64 16
  %10 = load ptr addrspace(1), ptr addrspace(1) %9, align 8, !tbaa !18
  %11 = tail call fastcc i64 @depth(ptr addrspace(1) noundef %10)
  %12 = tail call i64 @llvm.smax.i64(i64 %8, i64 %11)
  %13 = add nsw i64 %12, 1
  br label %3
}

; Function Attrs: nounwind uwtable
define internal fastcc void @print_keys(ptr addrspace(1) noundef readonly captures(address_is_null) %0, i64 noundef %1) unnamed_addr gc "statepoint-example" {
  br label %3

3:                                                ; preds = %7, %2
  %4 = phi ptr addrspace(1) [ %0, %2 ], [ %15, %7 ]
  %5 = phi i64 [ %1, %2 ], [ %10, %7 ]
  %6 = icmp eq ptr addrspace(1) %4, null
  br i1 %6, label %16, label %7

7:                                                ; preds = %3
  %8 = getelementptr inbounds nuw i8, ptr addrspace(1) %4, i64 8
  %9 = load ptr addrspace(1), ptr addrspace(1) %8, align 8, !tbaa !17
  %10 = add nsw i64 %5, 1
  tail call fastcc void @print_keys(ptr addrspace(1) noundef %9, i64 noundef %10)
  %11 = load i64, ptr addrspace(1) %4, align 8, !tbaa !12
  %12 = mul nsw i64 %11, 100
  %13 = add nsw i64 %12, %5
  tail call void @print_i64(i64 noundef %13) #4
  %14 = getelementptr inbounds nuw i8, ptr addrspace(1) %4, i64 16
  %15 = load ptr addrspace(1), ptr addrspace(1) %14, align 8, !tbaa !18
  br label %3

16:                                               ; preds = %3
  ret void
}

declare ptr addrspace(1) @gc_new.struct.Tree(i64 noundef) local_unnamed_addr #1

; Function Attrs: nocallback nocreateundeforpoison nofree nosync nounwind speculatable willreturn memory(none)
declare i64 @llvm.smax.i64(i64, i64) #3

attributes #0 = { nounwind uwtable "min-legal-vector-width"="0" "no-trapping-math"="true" "stack-protector-buffer-size"="8" "target-cpu"="x86-64" "target-features"="+cmov,+cx8,+fxsr,+mmx,+sse,+sse2,+x87" "tune-cpu"="generic" }
attributes #1 = { "no-trapping-math"="true" "stack-protector-buffer-size"="8" "target-cpu"="x86-64" "target-features"="+cmov,+cx8,+fxsr,+mmx,+sse,+sse2,+x87" "tune-cpu"="generic" }
attributes #2 = { nofree nosync nounwind memory(read, inaccessiblemem: none, target_mem0: none, target_mem1: none) uwtable "min-legal-vector-width"="0" "no-trapping-math"="true" "stack-protector-buffer-size"="8" "target-cpu"="x86-64" "target-features"="+cmov,+cx8,+fxsr,+mmx,+sse,+sse2,+x87" "tune-cpu"="generic" }
attributes #3 = { nocallback nocreateundeforpoison nofree nosync nounwind speculatable willreturn memory(none) }
attributes #4 = { nounwind }

!llvm.module.flags = !{!0, !1, !2, !3}
!llvm.ident = !{!4}
!llvm.errno.tbaa = !{!5}

!0 = !{i32 1, !"wchar_size", i32 4}
!1 = !{i32 8, !"PIC Level", i32 2}
!2 = !{i32 7, !"PIE Level", i32 2}
!3 = !{i32 7, !"uwtable", i32 2}
!4 = !{!"clang version 22.1.8"}
!5 = !{!6, !6, i64 0}
!6 = !{!"int", !7, i64 0}
!7 = !{!"omnipotent char", !8, i64 0}
!8 = !{!"Simple C/C++ TBAA"}
!9 = distinct !{!9, !10, !11}
!10 = !{!"llvm.loop.mustprogress"}
!11 = !{!"llvm.loop.unroll.disable"}
!12 = !{!13, !14, i64 0}
!13 = !{!"Tree", !14, i64 0, !15, i64 8, !15, i64 16}
!14 = !{!"long", !7, i64 0}
!15 = !{!"p1 _ZTS4Tree", !16, i64 0}
!16 = !{!"any pointer", !7, i64 0}
!17 = !{!13, !15, i64 8}
!18 = !{!13, !15, i64 16}
