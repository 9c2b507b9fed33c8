; What returns a block of memory to the exports on Windows. There LLVM, which compiles the exports, returns a struct of two
; words in RAX and RDX, and a C compiler, which compiles osbytes.c, through a pointer that is passed first.
declare void @osb_edge_alloc(ptr, i64, i64)
declare void @osb_edge_realloc(ptr, ptr, i64, i64, i64)

define { i64, i64 } @rattle_alloc(i64 %len, i64 %align) nounwind uwtable {
  %at = alloca { i64, i64 }
  call void @osb_edge_alloc(ptr %at, i64 %len, i64 %align)
  %block = load { i64, i64 }, ptr %at
  ret { i64, i64 } %block
}

define { i64, i64 } @rattle_realloc(ptr %old, i64 %kept, i64 %len, i64 %align) nounwind uwtable {
  %at = alloca { i64, i64 }
  call void @osb_edge_realloc(ptr %at, ptr %old, i64 %kept, i64 %len, i64 %align)
  %block = load { i64, i64 }, ptr %at
  ret { i64, i64 } %block
}
