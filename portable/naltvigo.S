/*
 * naltvigo.S: the library for the system and processor that the C compiler compiles for.
 *
 *     cc -c portable/naltvigo.S
 *     cc -Iinclude program.c naltvigo.o
 *
 * Each file included below was made by scripts/portable.py from the proved library; README.md says how.
 */
#if defined(__x86_64__) && !defined(__ILP32__)
#  if defined(__ELF__)
#    include "naltvigo-x86_64-elf.S"
#  elif defined(__APPLE__)
#    include "naltvigo-x86_64-macos.S"
#  elif defined(_WIN64)
#    include "naltvigo-x86_64-windows.S"
#  else
#    define NALTVIGO_NO_ASSEMBLY
#  endif
#elif defined(__aarch64__) && !defined(__ILP32__) && !defined(__AARCH64EB__)
#  if defined(__ELF__)
#    include "naltvigo-aarch64-elf.S"
#  elif defined(__APPLE__)
#    include "naltvigo-aarch64-macos.S"
#  else
#    define NALTVIGO_NO_ASSEMBLY
#  endif
#elif defined(__riscv) && __riscv_xlen == 64 && defined(__riscv_float_abi_double) && defined(__riscv_compressed) && defined(__ELF__)
#  include "naltvigo-riscv64-elf.S"
#else
#  define NALTVIGO_NO_ASSEMBLY
#endif

#ifdef NALTVIGO_NO_ASSEMBLY
#  error "naltvigo has no assembly for this target: there is x86_64 (Linux, FreeBSD, macOS, Windows by MinGW), aarch64 (Linux, FreeBSD, macOS) and riscv64 (Linux, rv64gc with lp64d)"
#endif
