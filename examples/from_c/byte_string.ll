; ModuleID = 'byte_string.c'
source_filename = "byte_string.c"
target datalayout = "e-m:e-p270:32:32-p271:32:32-p272:64:64-i64:64-i128:128-f80:128-n8:16:32:64-S128"
target triple = "x86_64-unknown-linux-gnu"

%struct.Word = type { i64 }

; Function Attrs: nounwind uwtable
define dso_local noundef i32 @main() local_unnamed_addr gc "statepoint-example" {
  %1 = tail call i64 @read_i64() #3
  %2 = tail call ptr addrspace(1) @gc_new.struct.Text(i64 noundef 1) #3
  %3 = add nsw i64 %1, 7
  %4 = sdiv i64 %3, 8
  %5 = tail call ptr addrspace(1) @gc_new.struct.Word(i64 noundef %4) #3
  %6 = getelementptr inbounds nuw i8, ptr addrspace(1) %2, i64 8
  store ptr addrspace(1) %5, ptr addrspace(1) %6, align 8, !tbaa !9
  %7 = icmp sgt i64 %1, 0
  br i1 %7, label %8, label %24

8:                                                ; preds = %0, %8
  %9 = phi i64 [ %22, %8 ], [ 0, %0 ]
  %10 = tail call i64 @read_i64() #3
  %11 = load i64, ptr addrspace(1) %2, align 8, !tbaa !14
  %12 = add nsw i64 %11, 1
  store i64 %12, ptr addrspace(1) %2, align 8, !tbaa !14
  %13 = and i64 %10, 255
  %14 = shl i64 %11, 3
  %15 = and i64 %14, 56
  %16 = shl nuw i64 %13, %15
  %17 = load ptr addrspace(1), ptr addrspace(1) %6, align 8, !tbaa !9
  %18 = ashr i64 %11, 3
  %19 = getelementptr inbounds %struct.Word, ptr addrspace(1) %17, i64 %18
  %20 = load i64, ptr addrspace(1) %19, align 8, !tbaa !15
  %21 = or i64 %20, %16
  store i64 %21, ptr addrspace(1) %19, align 8, !tbaa !15
  %22 = add nuw nsw i64 %9, 1
  %23 = icmp eq i64 %22, %1
  br i1 %23, label %24, label %8, !llvm.loop !17

24:                                               ; preds = %8, %0
  %25 = tail call i64 @read_i64() #3
  %26 = tail call ptr addrspace(1) @gc_new.struct.Text(i64 noundef 1) #3
  %27 = add nsw i64 %25, 7
  %28 = sdiv i64 %27, 8
  %29 = tail call ptr addrspace(1) @gc_new.struct.Word(i64 noundef %28) #3
  %30 = getelementptr inbounds nuw i8, ptr addrspace(1) %26, i64 8
  store ptr addrspace(1) %29, ptr addrspace(1) %30, align 8, !tbaa !9
  %31 = icmp sgt i64 %25, 0
  br i1 %31, label %32, label %48

32:                                               ; preds = %24, %32
  %33 = phi i64 [ %46, %32 ], [ 0, %24 ]
  %34 = tail call i64 @read_i64() #3
  %35 = load i64, ptr addrspace(1) %26, align 8, !tbaa !14
  %36 = add nsw i64 %35, 1
  store i64 %36, ptr addrspace(1) %26, align 8, !tbaa !14
  %37 = and i64 %34, 255
  %38 = shl i64 %35, 3
  %39 = and i64 %38, 56
  %40 = shl nuw i64 %37, %39
  %41 = load ptr addrspace(1), ptr addrspace(1) %30, align 8, !tbaa !9
  %42 = ashr i64 %35, 3
  %43 = getelementptr inbounds %struct.Word, ptr addrspace(1) %41, i64 %42
  %44 = load i64, ptr addrspace(1) %43, align 8, !tbaa !15
  %45 = or i64 %44, %40
  store i64 %45, ptr addrspace(1) %43, align 8, !tbaa !15
  %46 = add nuw nsw i64 %33, 1
  %47 = icmp eq i64 %46, %25
  br i1 %47, label %48, label %32, !llvm.loop !17

48:                                               ; preds = %32, %24
  %49 = load i64, ptr addrspace(1) %2, align 8, !tbaa !14
  %50 = load i64, ptr addrspace(1) %26, align 8, !tbaa !14
  %51 = tail call ptr addrspace(1) @gc_new.struct.Text(i64 noundef 1) #3
  %52 = add i64 %49, 7
  %53 = add i64 %52, %50
  %54 = sdiv i64 %53, 8
  %55 = tail call ptr addrspace(1) @gc_new.struct.Word(i64 noundef %54) #3
  %56 = getelementptr inbounds nuw i8, ptr addrspace(1) %51, i64 8
  store ptr addrspace(1) %55, ptr addrspace(1) %56, align 8, !tbaa !9
  %57 = load i64, ptr addrspace(1) %2, align 8, !tbaa !14
  %58 = icmp sgt i64 %57, 0
  br i1 %58, label %59, label %61

59:                                               ; preds = %48
  %60 = load ptr addrspace(1), ptr addrspace(1) %6, align 8, !tbaa !9
  br label %66

61:                                               ; preds = %66, %48
  %62 = load i64, ptr addrspace(1) %26, align 8, !tbaa !14
  %63 = icmp sgt i64 %62, 0
  br i1 %63, label %64, label %108

64:                                               ; preds = %61
  %65 = load ptr addrspace(1), ptr addrspace(1) %30, align 8, !tbaa !9
  br label %87

66:                                               ; preds = %66, %59
  %67 = phi i64 [ 0, %59 ], [ %84, %66 ]
  %68 = lshr i64 %67, 3
  %69 = getelementptr inbounds nuw %struct.Word, ptr addrspace(1) %60, i64 %68
  %70 = load i64, ptr addrspace(1) %69, align 8, !tbaa !15
  %71 = shl i64 %67, 3
  %72 = and i64 %71, 56
  %73 = ashr i64 %70, %72
  %74 = and i64 %73, 255
  %75 = load i64, ptr addrspace(1) %51, align 8, !tbaa !14
  %76 = add nsw i64 %75, 1
  store i64 %76, ptr addrspace(1) %51, align 8, !tbaa !14
  %77 = shl i64 %75, 3
  %78 = and i64 %77, 56
  %79 = shl nuw i64 %74, %78
  %80 = ashr i64 %75, 3
  %81 = getelementptr inbounds %struct.Word, ptr addrspace(1) %55, i64 %80
  %82 = load i64, ptr addrspace(1) %81, align 8, !tbaa !15
  %83 = or i64 %79, %82
  store i64 %83, ptr addrspace(1) %81, align 8, !tbaa !15
  %84 = add nuw nsw i64 %67, 1
  %85 = load i64, ptr addrspace(1) %2, align 8, !tbaa !14
  %86 = icmp slt i64 %84, %85
  br i1 %86, label %66, label %61, !llvm.loop !20

87:                                               ; preds = %87, %64
  %88 = phi i64 [ 0, %64 ], [ %105, %87 ]
  %89 = lshr i64 %88, 3
  %90 = getelementptr inbounds nuw %struct.Word, ptr addrspace(1) %65, i64 %89
  %91 = load i64, ptr addrspace(1) %90, align 8, !tbaa !15
  %92 = shl i64 %88, 3
  %93 = and i64 %92, 56
  %94 = ashr i64 %91, %93
  %95 = and i64 %94, 255
  %96 = load i64, ptr addrspace(1) %51, align 8, !tbaa !14
  %97 = add nsw i64 %96, 1
  store i64 %97, ptr addrspace(1) %51, align 8, !tbaa !14
  %98 = shl i64 %96, 3
  %99 = and i64 %98, 56
  %100 = shl nuw i64 %95, %99
  %101 = ashr i64 %96, 3
  %102 = getelementptr inbounds %struct.Word, ptr addrspace(1) %55, i64 %101
  %103 = load i64, ptr addrspace(1) %102, align 8, !tbaa !15
  %104 = or i64 %100, %103
  store i64 %104, ptr addrspace(1) %102, align 8, !tbaa !15
  %105 = add nuw nsw i64 %88, 1
  %106 = load i64, ptr addrspace(1) %26, align 8, !tbaa !14
  %107 = icmp slt i64 %105, %106
  br i1 %107, label %87, label %108, !llvm.loop !21

108:                                              ; preds = %87, %61
  %109 = load i64, ptr addrspace(1) %51, align 8, !tbaa !14
  %110 = icmp sgt i64 %109, 0
  br i1 %110, label %179, label %111

111:                                              ; preds = %179, %108
  %112 = phi i64 [ -3750763034362895579, %108 ], [ %190, %179 ]
  tail call void @print_i64(i64 noundef %112) #3
  %113 = load i64, ptr addrspace(1) %2, align 8, !tbaa !14
  %114 = load i64, ptr addrspace(1) %26, align 8, !tbaa !14
  %115 = tail call i64 @llvm.smin.i64(i64 %113, i64 %114)
  %116 = icmp sgt i64 %115, 0
  br i1 %116, label %117, label %140

117:                                              ; preds = %111
  %118 = load ptr addrspace(1), ptr addrspace(1) %6, align 8, !tbaa !9
  %119 = load ptr addrspace(1), ptr addrspace(1) %30, align 8, !tbaa !9
  br label %120

120:                                              ; preds = %120, %117
  %121 = phi i64 [ undef, %117 ], [ %136, %120 ]
  %122 = phi i64 [ 0, %117 ], [ %137, %120 ]
  %123 = lshr i64 %122, 3
  %124 = getelementptr inbounds nuw %struct.Word, ptr addrspace(1) %118, i64 %123
  %125 = load i64, ptr addrspace(1) %124, align 8, !tbaa !15
  %126 = shl i64 %122, 3
  %127 = and i64 %126, 56
  %128 = ashr i64 %125, %127
  %129 = and i64 %128, 255
  %130 = getelementptr inbounds nuw %struct.Word, ptr addrspace(1) %119, i64 %123
  %131 = load i64, ptr addrspace(1) %130, align 8, !tbaa !15
  %132 = ashr i64 %131, %127
  %133 = and i64 %132, 255
  %134 = sub nsw i64 %129, %133
  %135 = icmp ne i64 %129, %133
  %136 = select i1 %135, i64 %134, i64 %121
  %137 = add nuw nsw i64 %122, 1
  %138 = icmp eq i64 %137, %115
  %139 = select i1 %135, i1 true, i1 %138
  br i1 %139, label %140, label %120, !llvm.loop !22

140:                                              ; preds = %120, %111
  %141 = phi i1 [ false, %111 ], [ %135, %120 ]
  %142 = phi i64 [ undef, %111 ], [ %136, %120 ]
  %143 = sub nsw i64 %113, %114
  %144 = select i1 %141, i64 %142, i64 %143
  tail call void @print_i64(i64 noundef %144) #3
  %145 = load i64, ptr addrspace(1) %51, align 8, !tbaa !14
  %146 = load i64, ptr addrspace(1) %2, align 8, !tbaa !14
  %147 = tail call i64 @llvm.smin.i64(i64 %145, i64 %146)
  %148 = icmp sgt i64 %147, 0
  br i1 %148, label %149, label %172

149:                                              ; preds = %140
  %150 = load ptr addrspace(1), ptr addrspace(1) %56, align 8, !tbaa !9
  %151 = load ptr addrspace(1), ptr addrspace(1) %6, align 8, !tbaa !9
  br label %152

152:                                              ; preds = %152, %149
  %153 = phi i64 [ undef, %149 ], [ %168, %152 ]
  %154 = phi i64 [ 0, %149 ], [ %169, %152 ]
  %155 = lshr i64 %154, 3
  %156 = getelementptr inbounds nuw %struct.Word, ptr addrspace(1) %150, i64 %155
  %157 = load i64, ptr addrspace(1) %156, align 8, !tbaa !15
  %158 = shl i64 %154, 3
  %159 = and i64 %158, 56
  %160 = ashr i64 %157, %159
  %161 = and i64 %160, 255
  %162 = getelementptr inbounds nuw %struct.Word, ptr addrspace(1) %151, i64 %155
  %163 = load i64, ptr addrspace(1) %162, align 8, !tbaa !15
  %164 = ashr i64 %163, %159
  %165 = and i64 %164, 255
  %166 = sub nsw i64 %161, %165
  %167 = icmp ne i64 %161, %165
  %168 = select i1 %167, i64 %166, i64 %153
  %169 = add nuw nsw i64 %154, 1
  %170 = icmp eq i64 %169, %147
  %171 = select i1 %167, i1 true, i1 %170
  br i1 %171, label %172, label %152, !llvm.loop !22

172:                                              ; preds = %152, %140
  %173 = phi i1 [ false, %140 ], [ %167, %152 ]
  %174 = phi i64 [ undef, %140 ], [ %168, %152 ]
  %175 = sub nsw i64 %145, %146
  %176 = select i1 %173, i64 %174, i64 %175
  tail call void @print_i64(i64 noundef %176) #3
  %177 = load ptr addrspace(1), ptr addrspace(1) %56, align 8, !tbaa !9
  %178 = load i64, ptr addrspace(1) %177, align 8, !tbaa !15
  tail call void @print_i64(i64 noundef %178) #3
  ret i32 0

179:                                              ; preds = %108, %179
  %180 = phi i64 [ %191, %179 ], [ 0, %108 ]
  %181 = phi i64 [ %190, %179 ], [ -3750763034362895579, %108 ]
  %182 = lshr i64 %180, 3
  %183 = getelementptr inbounds nuw %struct.Word, ptr addrspace(1) %55, i64 %182
  %184 = load i64, ptr addrspace(1) %183, align 8, !tbaa !15
  %185 = shl i64 %180, 3
  %186 = and i64 %185, 56
  %187 = ashr i64 %184, %186
  %188 = and i64 %187, 255
  %189 = xor i64 %188, %181
  %190 = mul i64 %189, 1099511628211
  %191 = add nuw nsw i64 %180, 1
  %192 = icmp eq i64 %191, %109
  br i1 %192, label %111, label %179, !llvm.loop !23
}

declare void @print_i64(i64 noundef) local_unnamed_addr #1

declare i64 @read_i64() local_unnamed_addr #1

declare ptr addrspace(1) @gc_new.struct.Text(i64 noundef) local_unnamed_addr #1

declare ptr addrspace(1) @gc_new.struct.Word(i64 noundef) local_unnamed_addr #1

; Function Attrs: nocallback nocreateundeforpoison nofree nosync nounwind speculatable willreturn memory(none)
declare i64 @llvm.smin.i64(i64, i64) #2

attributes #0 = { nounwind uwtable "min-legal-vector-width"="0" "no-trapping-math"="true" "stack-protector-buffer-size"="8" "target-cpu"="x86-64" "target-features"="+cmov,+cx8,+fxsr,+mmx,+sse,+sse2,+x87" "tune-cpu"="generic" }
attributes #1 = { "no-trapping-math"="true" "stack-protector-buffer-size"="8" "target-cpu"="x86-64" "target-features"="+cmov,+cx8,+fxsr,+mmx,+sse,+sse2,+x87" "tune-cpu"="generic" }
attributes #2 = { nocallback nocreateundeforpoison nofree nosync nounwind speculatable willreturn memory(none) }
attributes #3 = { nounwind }

!llvm.module.flags = !{!0, !1, !2, !3}
!llvm.ident = !{!4}
!llvm.errno.tbaa = !{!5}

!0 = !{i32 1, !"wchar_size", i32 4}
!1 = !{i32 8, !"PIC Level", i32 2}
!2 = !{i32 7, !"PIE Level", i32 2}
!3 = !{i32 7, !"uwtable", i32 2}
!4 = !{!"clang version 22.1.8"}
!5 = !{!6, !6, i64 0}
!6 = !{!"int", !7, i64 0}
!7 = !{!"omnipotent char", !8, i64 0}
!8 = !{!"Simple C/C++ TBAA"}
!9 = !{!10, !12, i64 8}
!10 = !{!"Text", !11, i64 0, !12, i64 8}
!11 = !{!"long", !7, i64 0}
!12 = !{!"p1 _ZTS4Word", !13, i64 0}
!13 = !{!"any pointer", !7, i64 0}
!14 = !{!10, !11, i64 0}
!15 = !{!16, !11, i64 0}
!16 = !{!"Word", !11, i64 0}
!17 = distinct !{!17, !18, !19}
!18 = !{!"llvm.loop.mustprogress"}
!19 = !{!"llvm.loop.unroll.disable"}
!20 = distinct !{!20, !18, !19}
!21 = distinct !{!21, !18, !19}
!22 = distinct !{!22, !18, !19}
!23 = distinct !{!23, !18, !19}
