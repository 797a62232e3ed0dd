declare ptr @malloc(i32)
declare ptr @realloc(ptr, i32)

; A new block, or another size of a block; a size of 32 bits or more is refused.
define internal ptr @block_of(ptr %before, i64 %bytes) nounwind {
  %is_beyond = icmp ugt i64 %bytes, 4294901760
  br i1 %is_beyond, label %refused, label %fits
refused:
  ret ptr null
fits:
  %word = trunc i64 %bytes to i32
  %is_new = icmp eq ptr %before, null
  br i1 %is_new, label %new, label %old
new:
  %fresh = call ptr @malloc(i32 %word)
  ret ptr %fresh
old:
  %moved = call ptr @realloc(ptr %before, i32 %word)
  ret ptr %moved
}
