; The heap of the library on WebAssembly and on Windows: what c/heap.c does on 64-bit ARM, in LLVM's own text, since C
; compilers return a struct of two words in other ways than the module. @block_of is in heap32.ll and heap64.ll, by the bits
; of an address. No proof covers it.

@no_place = private global [16 x i8] zeroinitializer, align 16

declare void @free(ptr)

; A block, or a refusal: the first word is 0 then, and the place is never null.
define internal { i64, i64 } @answer_of(ptr %block) nounwind {
  %is_missing = icmp eq ptr %block, null
  %place = select i1 %is_missing, ptr @no_place, ptr %block
  %given = select i1 %is_missing, i64 0, i64 1
  %address = ptrtoint ptr %place to i64
  %half = insertvalue { i64, i64 } poison, i64 %given, 0
  %answer = insertvalue { i64, i64 } %half, i64 %address, 1
  ret { i64, i64 } %answer
}

; Bytes for malloc, which aligns for every type of the library: a block of none takes some, so that it has a place of its own.
define internal i64 @taken(i64 %size, i64 %alignment) nounwind {
  %is_empty = icmp eq i64 %size, 0
  %bytes = select i1 %is_empty, i64 %alignment, i64 %size
  ret i64 %bytes
}

define internal { i64, i64 } @rattle_alloc(i64 %size, i64 %alignment) nounwind {
  %bytes = call i64 @taken(i64 %size, i64 %alignment)
  %block = call ptr @block_of(ptr null, i64 %bytes)
  %answer = call { i64, i64 } @answer_of(ptr %block)
  ret { i64, i64 } %answer
}

define internal { i64, i64 } @rattle_realloc(ptr %before, i64 %had, i64 %size, i64 %alignment) nounwind {
  %bytes = call i64 @taken(i64 %size, i64 %alignment)
  %block = call ptr @block_of(ptr %before, i64 %bytes)
  %answer = call { i64, i64 } @answer_of(ptr %block)
  ret { i64, i64 } %answer
}

define internal void @rattle_dealloc(ptr %block) nounwind {
  call void @free(ptr %block)
  ret void
}
