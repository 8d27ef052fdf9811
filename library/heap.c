/* The memory of the library: the three functions that the kit's liblibc_c.a has, over malloc and free. Each block
   is set to zero before it is given back, so that no private number of lzk_eval is left in memory that the program
   uses again. In front of a block its size is kept, in 16 bytes, so that a block has malloc's alignment.
   rattle_realloc never leaves a copy behind: it takes a new block. */
#define _DEFAULT_SOURCE
#include <stdint.h>
#include <stdlib.h>
#include <string.h>

enum { HEAD = 16 };

/* As `Tried` of the kit's libc. */
struct tried {
  _Bool ok;
  unsigned char *block;
};

static unsigned char nowhere[16];

struct tried rattle_alloc(size_t size, size_t align) {
  struct tried none = {0, nowhere};
  unsigned char *block;
  (void)align; /* at most 16 */
  if (size > SIZE_MAX - HEAD) return none;
  block = malloc(size + HEAD);
  if (!block) return none;
  memcpy(block, &size, sizeof size);
  return (struct tried){1, block + HEAD};
}

void rattle_dealloc(unsigned char *block) {
  size_t size;
  memcpy(&size, block - HEAD, sizeof size);
  explicit_bzero(block, size);
  free(block - HEAD);
}

struct tried rattle_realloc(unsigned char *old, size_t kept, size_t size, size_t align) {
  struct tried new = rattle_alloc(size, align);
  if (!new.ok) return new;
  memcpy(new.block, old, kept < size ? kept : size);
  rattle_dealloc(old);
  return new;
}
