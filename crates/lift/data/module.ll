; ModuleID = 'list.c'
source_filename = "list.c"
target datalayout = "e-m:e-p270:32:32-p271:32:32-p272:64:64-i64:64-f80:128-n8:16:32:64-S128"
target triple = "x86_64-unknown-linux-gnu"

; a cell of a list: a number and the next cell
%Cell = type { i64, ptr addrspace(1) }

declare ptr addrspace(1) @gc_new.Cell(i64 noundef) #0

declare void @print_i64(i64 noundef) #1

; Function Attrs: nounwind uwtable
define dso_local noundef ptr addrspace(1) @push(i64 noundef %0, ptr addrspace(1) noundef readonly align 8 %1) local_unnamed_addr #2 gc "statepoint-example" {
  %3 = tail call ptr addrspace(1) @gc_new.Cell(i64 noundef 1) #3
  store i64 %0, ptr addrspace(1) %3, align 8, !tbaa !2
  %4 = getelementptr inbounds nuw %Cell, ptr addrspace(1) %3, i64 0, i32 1
  store ptr addrspace(1) %1, ptr addrspace(1) %4, align 8
  ret ptr addrspace(1) %3
}

; Function Attrs: nounwind uwtable
define dso_local i32 @weight(i32 noundef %kind) local_unnamed_addr #2 gc "statepoint-example" {
entry:
  switch i32 %kind, label %other [
    i32 0, label %light
    i32 -1, label %heavy   ; the last kind
  ], !prof !3

light:                                            ; preds = %entry
  br label %done

heavy:                                            ; preds = %entry
  br label %done

other:                                            ; preds = %entry
  %twice = shl nuw nsw i32 %kind, 1
  br label %done

done:                                             ; preds = %other, %heavy, %light
  %weight = phi i32 [ 1, %light ], [ 100, %heavy ], [ %twice, %other ]
  ret i32 %weight
}

; Function Attrs: nounwind uwtable
define dso_local i32 @main() local_unnamed_addr #2 gc "statepoint-example" {
  %1 = call ptr addrspace(1) @push(i64 noundef 7, ptr addrspace(1) noundef null)
  %2 = icmp ne ptr addrspace(1) %1, null
  %3 = zext i1 %2 to i64
  call void @print_i64(i64 noundef %3)
  %4 = call i32 @weight(i32 noundef 4294967295)
  %5 = select i1 true, i32 %4, i32 0
  ret i32 %5
}

attributes #0 = { nounwind allocsize(0) "no-trapping-math"="true" }
attributes #1 = { "gc-leaf-function" }
attributes #2 = { nounwind uwtable "frame-pointer"="all" "target-cpu"="x86-64" }
attributes #3 = { nounwind }

!llvm.module.flags = !{!0}
!llvm.ident = !{!1}

!0 = !{i32 1, !"wchar_size", i32 4}
!1 = !{!"clang version 18.1.3"}
!2 = !{!4, !4, i64 0}
!3 = !{!"branch_weights", i32 1, i32 5, i32 9}
!4 = !{!"long", !5, i64 0}
!5 = !{!"omnipotent char", !6, i64 0}
!6 = !{!"Simple C/C++ TBAA"}
