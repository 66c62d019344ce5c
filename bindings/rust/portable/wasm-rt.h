/* What the C that wasm2c writes wants of its runtime, for one module without imports, tables or growing memory: a memory, which lies in
 * the instance itself, and a trap. */
#ifndef WASM_RT_H
#define WASM_RT_H
#include <stdbool.h>
#include <stdint.h>
#include <string.h>

#if defined(__BYTE_ORDER__) && __BYTE_ORDER__ != __ORDER_LITTLE_ENDIAN__
#error "the portable client is for machines that put the least significant byte first"
#endif

#ifdef __GNUC__
#define UNLIKELY(x) __builtin_expect(!!(x), 0)
#define LIKELY(x) __builtin_expect(!!(x), 1)
#else
#define UNLIKELY(x) (x)
#define LIKELY(x) (x)
#endif
#define wasm_rt_memcpy(to, from, n) memcpy((to), (from), (n))

/* Two pages, as the module says. */
enum { WASM_RT_MEMORY_BYTES = 2 * 65536 };

typedef enum {
    WASM_RT_TRAP_NONE, WASM_RT_TRAP_OOB, WASM_RT_TRAP_INT_OVERFLOW, WASM_RT_TRAP_DIV_BY_ZERO,
    WASM_RT_TRAP_INVALID_CONVERSION, WASM_RT_TRAP_UNREACHABLE, WASM_RT_TRAP_CALL_INDIRECT, WASM_RT_TRAP_UNCAUGHT_EXCEPTION,
    WASM_RT_TRAP_EXHAUSTION
} wasm_rt_trap_t;
typedef enum { WASM_RT_I32, WASM_RT_I64, WASM_RT_F32, WASM_RT_F64, WASM_RT_FUNCREF, WASM_RT_EXTERNREF } wasm_rt_type_t;
typedef void (*wasm_rt_function_ptr_t)(void);
typedef struct { uint32_t func_type; wasm_rt_function_ptr_t func; void *module_instance; } wasm_rt_funcref_t;
typedef struct { wasm_rt_funcref_t *data; uint32_t max_size, size; } wasm_rt_funcref_table_t;
typedef void *wasm_rt_externref_t;
typedef struct { wasm_rt_externref_t *data; uint32_t max_size, size; } wasm_rt_externref_table_t;
#define wasm_rt_externref_null_value NULL
typedef struct { uint8_t data[WASM_RT_MEMORY_BYTES]; uint64_t size; } wasm_rt_memory_t;

#ifdef _MSC_VER
__declspec(noreturn)
#else
__attribute__((noreturn))
#endif
void wasm_rt_trap(wasm_rt_trap_t);
static inline bool wasm_rt_is_initialized(void) { return true; }
static inline uint32_t wasm_rt_register_func_type(uint32_t params, uint32_t results, ...) { return params + results; }
/* The caller has cleared the memory. */
static inline void wasm_rt_allocate_memory(wasm_rt_memory_t *memory, uint32_t pages, uint32_t max_pages) {
    (void)pages, (void)max_pages;
    memory->size = WASM_RT_MEMORY_BYTES;
}
static inline void wasm_rt_free_memory(wasm_rt_memory_t *memory) { (void)memory; }
#endif
