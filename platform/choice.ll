; Whether the processor has what x86-64-v2 adds to x86-64. It is asked once, and a byte keeps what it said: 0 not asked yet,
; 1 no, 2 yes. Threads that ask at the same time store the same byte. Nothing proves this.

@processor_kept = internal global i8 0

define internal i1 @processor_has_v2() nounwind {
start:
  %kept = load atomic i8, ptr @processor_kept monotonic, align 1
  %is_asked = icmp ne i8 %kept, 0
  br i1 %is_asked, label %known, label %ask
ask:
  %found = call i8 @processor_ask()
  store atomic i8 %found, ptr @processor_kept monotonic, align 1
  br label %known
known:
  %it = phi i8 [ %kept, %start ], [ %found, %ask ]
  %has = icmp eq i8 %it, 2
  ret i1 %has
}

; Of leaf 1, in ecx: SSE3 (bit 0), SSSE3 (9), CMPXCHG16B (13), SSE4.1 (19), SSE4.2 (20), POPCNT (23). Of leaf 0x80000001, in ecx:
; LAHF (0).
define internal i8 @processor_ask() noinline nounwind {
  %one = call { i32, i32, i32, i32 } asm sideeffect "cpuid", "={ax},={bx},={cx},={dx},{ax},{cx},~{dirflag},~{fpsr},~{flags}"(i32 1, i32 0)
  %ecx = extractvalue { i32, i32, i32, i32 } %one, 2
  %missing = xor i32 %ecx, -1
  %lacks = and i32 %missing, 9970177
  %extended = call { i32, i32, i32, i32 } asm sideeffect "cpuid", "={ax},={bx},={cx},={dx},{ax},{cx},~{dirflag},~{fpsr},~{flags}"(i32 -2147483647, i32 0)
  %ecx.extended = extractvalue { i32, i32, i32, i32 } %extended, 2
  %missing.extended = xor i32 %ecx.extended, -1
  %lacks.extended = and i32 %missing.extended, 1
  %lacks.any = or i32 %lacks, %lacks.extended
  %has = icmp eq i32 %lacks.any, 0
  %it = select i1 %has, i8 2, i8 1
  ret i8 %it
}
