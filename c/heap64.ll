declare ptr @malloc(i64)
declare ptr @realloc(ptr, i64)

; A new block, or another size of a block.
define internal ptr @block_of(ptr %before, i64 %bytes) nounwind {
  %is_new = icmp eq ptr %before, null
  br i1 %is_new, label %new, label %old
new:
  %fresh = call ptr @malloc(i64 %bytes)
  ret ptr %fresh
old:
  %moved = call ptr @realloc(ptr %before, i64 %bytes)
  ret ptr %moved
}
