; The three functions that a Rattle library or program calls for memory, over the C library's malloc, realloc and free.
; They return what the kit's libc/src/heap.rt says of them: whether there is memory, and a pointer that is never null.
; In LLVM's language, so that they have the calling convention of their callers on every target. The calls are nobuiltin, so
; that clang removes none of them. Nothing proves them.

declare ptr @malloc(i64)
declare ptr @realloc(ptr, i64)
declare void @free(ptr)

@rattle_nothing = internal global i8 0

define internal { i64, i64 } @rattle_tried(ptr %p) nounwind {
  %ok = icmp ne ptr %p, null
  %valid = select i1 %ok, ptr %p, ptr @rattle_nothing
  %flag = zext i1 %ok to i64
  %address = ptrtoint ptr %valid to i64
  %half = insertvalue { i64, i64 } undef, i64 %flag, 0
  %whole = insertvalue { i64, i64 } %half, i64 %address, 1
  ret { i64, i64 } %whole
}

define internal { i64, i64 } @rattle_alloc(i64 %n, i64 %align) nounwind {
  %none = icmp eq i64 %n, 0
  %size = select i1 %none, i64 %align, i64 %n
  %p = call ptr @malloc(i64 %size) nobuiltin
  %tried = call { i64, i64 } @rattle_tried(ptr %p)
  ret { i64, i64 } %tried
}

define internal { i64, i64 } @rattle_realloc(ptr %old, i64 %kept, i64 %n, i64 %align) nounwind {
  %none = icmp eq i64 %n, 0
  %size = select i1 %none, i64 %align, i64 %n
  %p = call ptr @realloc(ptr %old, i64 %size) nobuiltin
  %tried = call { i64, i64 } @rattle_tried(ptr %p)
  ret { i64, i64 } %tried
}

define internal void @rattle_dealloc(ptr %p) nounwind {
  call void @free(ptr %p) nobuiltin
  ret void
}
