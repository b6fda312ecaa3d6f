; ModuleID = 'checked_numbers.c'
source_filename = "checked_numbers.c"
target datalayout = "e-m:e-p270:32:32-p271:32:32-p272:64:64-i64:64-i128:128-f80:128-n8:16:32:64-S128"
target triple = "x86_64-unknown-linux-gnu"

; Function Attrs: nounwind uwtable
define dso_local noundef i32 @main() local_unnamed_addr gc "statepoint-example" {
  %1 = tail call i64 @read_i64() #6
  %2 = tail call i64 @read_i64() #6
  %3 = tail call i64 @llvm.smax.i64(i64 %1, i64 %2)
  %4 = tail call noundef ptr addrspace(1) @gc_new.struct.Number(i64 noundef 1) #6
  store i64 %3, ptr addrspace(1) %4, align 8, !tbaa !9
  %5 = tail call { i64, i1 } @llvm.sadd.with.overflow.i64(i64 %1, i64 %2)
  %6 = extractvalue { i64, i1 } %5, 1
  %7 = extractvalue { i64, i1 } %5, 0
  %8 = zext i1 %6 to i64
  tail call void @print_i64(i64 noundef %8) #6
  tail call void @print_i64(i64 noundef %7) #6
  %9 = tail call { i64, i1 } @llvm.ssub.with.overflow.i64(i64 %1, i64 %2)
  %10 = extractvalue { i64, i1 } %9, 1
  %11 = extractvalue { i64, i1 } %9, 0
  %12 = zext i1 %10 to i64
  tail call void @print_i64(i64 noundef %12) #6
  tail call void @print_i64(i64 noundef %11) #6
  %13 = tail call { i64, i1 } @llvm.smul.with.overflow.i64(i64 %1, i64 %2)
  %14 = extractvalue { i64, i1 } %13, 1
  %15 = extractvalue { i64, i1 } %13, 0
  %16 = zext i1 %14 to i64
  tail call void @print_i64(i64 noundef %16) #6
  tail call void @print_i64(i64 noundef %15) #6
  %17 = tail call { i64, i1 } @llvm.uadd.with.overflow.i64(i64 %1, i64 %2)
  %18 = extractvalue { i64, i1 } %17, 1
  %19 = zext i1 %18 to i64
  tail call void @print_i64(i64 noundef %19) #6
  %20 = tail call { i64, i1 } @llvm.umul.with.overflow.i64(i64 %1, i64 %2)
  %21 = extractvalue { i64, i1 } %20, 1
  %22 = zext i1 %21 to i64
  tail call void @print_i64(i64 noundef %22) #6
  %23 = tail call range(i64 0, 65) i64 @llvm.ctpop.i64(i64 %1)
  tail call void @print_i64(i64 noundef %23) #6
  %24 = tail call i64 @llvm.bswap.i64(i64 %1)
  tail call void @print_i64(i64 noundef %24) #6
  %25 = tail call i64 @llvm.fshl.i64(i64 %1, i64 %1, i64 %2)
  tail call void @print_i64(i64 noundef %25) #6
  %26 = tail call i64 @llvm.abs.i64(i64 %1, i1 true)
  tail call void @print_i64(i64 noundef %26) #6
  %27 = load i64, ptr addrspace(1) %4, align 8, !tbaa !9
  tail call void @print_i64(i64 noundef %27) #6
  %28 = load i64, ptr addrspace(1) %4, align 8, !tbaa !9
  %29 = icmp slt i64 %28, %1
  br i1 %29, label %30, label %31

30:                                               ; preds = %0
  tail call void @llvm.trap()
  unreachable

31:                                               ; preds = %0
  ret i32 0
}

declare i64 @read_i64() local_unnamed_addr #1

declare void @print_i64(i64 noundef) local_unnamed_addr #1

; Function Attrs: mustprogress nocallback nocreateundeforpoison nofree nosync nounwind speculatable willreturn memory(none)
declare { i64, i1 } @llvm.sadd.with.overflow.i64(i64, i64) #2

; Function Attrs: mustprogress nocallback nocreateundeforpoison nofree nosync nounwind speculatable willreturn memory(none)
declare { i64, i1 } @llvm.ssub.with.overflow.i64(i64, i64) #2

; Function Attrs: mustprogress nocallback nocreateundeforpoison nofree nosync nounwind speculatable willreturn memory(none)
declare { i64, i1 } @llvm.smul.with.overflow.i64(i64, i64) #2

; Function Attrs: mustprogress nocallback nocreateundeforpoison nofree nosync nounwind speculatable willreturn memory(none)
declare { i64, i1 } @llvm.uadd.with.overflow.i64(i64, i64) #2

; Function Attrs: mustprogress nocallback nocreateundeforpoison nofree nosync nounwind speculatable willreturn memory(none)
declare { i64, i1 } @llvm.umul.with.overflow.i64(i64, i64) #2

; Function Attrs: mustprogress nocallback nocreateundeforpoison nofree nosync nounwind speculatable willreturn memory(none)
declare i64 @llvm.ctpop.i64(i64) #2

; Function Attrs: mustprogress nocallback nocreateundeforpoison nofree nosync nounwind speculatable willreturn memory(none)
declare i64 @llvm.bswap.i64(i64) #2

; Function Attrs: mustprogress nocallback nocreateundeforpoison nofree nosync nounwind speculatable willreturn memory(none)
declare i64 @llvm.fshl.i64(i64, i64, i64) #2

; Function Attrs: cold noreturn nounwind memory(inaccessiblemem: write)
declare void @llvm.trap() #3

declare ptr addrspace(1) @gc_new.struct.Number(i64 noundef) local_unnamed_addr #1

; Function Attrs: nocallback nocreateundeforpoison nofree nosync nounwind speculatable willreturn memory(none)
declare i64 @llvm.smax.i64(i64, i64) #4

; Function Attrs: nocallback nofree nosync nounwind speculatable willreturn memory(none)
declare i64 @llvm.abs.i64(i64, i1 immarg) #5

attributes #0 = { nounwind uwtable "min-legal-vector-width"="0" "no-trapping-math"="true" "stack-protector-buffer-size"="8" "target-cpu"="x86-64" "target-features"="+cmov,+cx8,+fxsr,+mmx,+sse,+sse2,+x87" "tune-cpu"="generic" }
attributes #1 = { "no-trapping-math"="true" "stack-protector-buffer-size"="8" "target-cpu"="x86-64" "target-features"="+cmov,+cx8,+fxsr,+mmx,+sse,+sse2,+x87" "tune-cpu"="generic" }
attributes #2 = { mustprogress nocallback nocreateundeforpoison nofree nosync nounwind speculatable willreturn memory(none) }
attributes #3 = { cold noreturn nounwind memory(inaccessiblemem: write) }
attributes #4 = { nocallback nocreateundeforpoison nofree nosync nounwind speculatable willreturn memory(none) }
attributes #5 = { nocallback nofree nosync nounwind speculatable willreturn memory(none) }
attributes #6 = { nounwind }

!llvm.module.flags = !{!0, !1, !2, !3}
!llvm.ident = !{!4}
!llvm.errno.tbaa = !{!5}

!0 = !{i32 1, !"wchar_size", i32 4}
!1 = !{i32 8, !"PIC Level", i32 2}
!2 = !{i32 7, !"PIE Level", i32 2}
!3 = !{i32 7, !"uwtable", i32 2}
!4 = !{!"clang version 22.1.8"}
!5 = !{!6, !6, i64 0}
!6 = !{!"int", !7, i64 0}
!7 = !{!"omnipotent char", !8, i64 0}
!8 = !{!"Simple C/C++ TBAA"}
!9 = !{!10, !11, i64 0}
!10 = !{!"Number", !11, i64 0}
!11 = !{!"long", !7, i64 0}
