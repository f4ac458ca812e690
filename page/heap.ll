; What the module asks of a heap: each call answers two words, whether there was memory and where. C has no such result.
target datalayout = "e-m:e-p:64:64-p10:8:8-p20:8:8-i64:64-i128:128-n32:64-S128-ni:1:10:20"
target triple = "wasm64-unknown-unknown"
@page_nothing = external global i8
declare ptr @malloc(i64)
declare ptr @page_realloc(ptr, i64, i64)
declare void @free(ptr)
define { i64, i64 } @rattle_alloc(i64 %n, i64 %a) {
  %p = call ptr @malloc(i64 %n)
  %w = ptrtoint ptr %p to i64
  %ok = icmp ne i64 %w, 0
  %k = zext i1 %ok to i64
  %q = select i1 %ok, i64 %w, i64 ptrtoint (ptr @page_nothing to i64)
  %r = insertvalue { i64, i64 } undef, i64 %k, 0
  %s = insertvalue { i64, i64 } %r, i64 %q, 1
  ret { i64, i64 } %s
}
define { i64, i64 } @rattle_realloc(ptr %p0, i64 %kept, i64 %n, i64 %a) {
  %p = call ptr @page_realloc(ptr %p0, i64 %kept, i64 %n)
  %w = ptrtoint ptr %p to i64
  %ok = icmp ne i64 %w, 0
  %k = zext i1 %ok to i64
  %q = select i1 %ok, i64 %w, i64 ptrtoint (ptr @page_nothing to i64)
  %r = insertvalue { i64, i64 } undef, i64 %k, 0
  %s = insertvalue { i64, i64 } %r, i64 %q, 1
  ret { i64, i64 } %s
}
define void @rattle_dealloc(ptr %p) {
  call void @free(ptr %p)
  ret void
}
