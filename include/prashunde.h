/*
 * Prashunde: a RISC-V vector machine for the classroom (RV64; integer and fixed-point instructions), on two boards: the first one has VLEN
 * 128 and ELEN 64, the smaller one VLEN 64 and ELEN 32 (Zve32x). The calls of the smaller board are those whose names begin with
 * prashunde_small_.
 *
 * `rt lib`, in crates/capi, writes the library, crates/capi/out/libcapi.a, for x86-64 Linux. It needs no other library, has no state of its
 * own, allocates nothing, and each call returns. Calls on different parts may run at the same time on different threads.
 *
 * THE PARTS that a caller lends:
 *   registers   512 bytes: vector register vN begins at byte 16 * N, lowest byte first. On the smaller board 256 bytes, 8 * N
 *   scalars     32 numbers: x0 to x31. x0 reads 0, and its slot is never written
 *   memory      0 to 65536 bytes, from address 0
 *   rights      256 bytes, one for each page of 256 bytes: 0 closed, 1 read, 2 read and write
 *   control     6 numbers: vtype, vl, vstart, vxrm, vxsat, vs. vs is the status field VS of mstatus: 0 Off, 1 Initial, 2 Clean, 3 Dirty
 *
 * WHAT THE CALLER OWES. Every pointer is valid for its length, aligned for its type, and not NULL (not even beside a length of 0). Parts
 * that are written overlap no other part of the same call. All else is tested: a wrong length or a wrong value is answered and changes
 * nothing.
 */
#ifndef PRASHUNDE_H
#define PRASHUNDE_H

#include <stddef.h>
#include <stdint.h>

#ifdef __cplusplus
extern "C" {
#endif

/* The answers. 4 to 7 are the causes of the privileged manual. */
enum {
    PRASHUNDE_FINISHED = 0,         /* no element remains; vstart is 0 */
    PRASHUNDE_PAUSED = 1,           /* the allowance is used up; vstart is the next element */
    PRASHUNDE_ILLEGAL = 2,          /* a reserved, left out or unsupported word (also one that reads one register at two different EEWs),
                                       a word that the access check is not for, or no such CSR; any word and any CSR where vs is 0 (Off);
                                       nothing is changed */
    PRASHUNDE_LOAD_MISALIGNED = 4,  /* 4 to 7: the elements before the faulting one are done, vstart is that element */
    PRASHUNDE_LOAD_ACCESS = 5,      /* past memory, or the page may not be read; an aligned element lies on one page */
    PRASHUNDE_STORE_MISALIGNED = 6,
    PRASHUNDE_STORE_ACCESS = 7,     /* past memory, or the page may not be written */
    PRASHUNDE_BAD_REGISTERS = 32,   /* 32 to 36, in this order: nothing is changed. registers_len is not 512 (smaller board: 256) */
    PRASHUNDE_BAD_SCALARS = 33,     /* scalars_len is not 32 */
    PRASHUNDE_BAD_MEMORY = 34,      /* memory_len is over 65536 */
    PRASHUNDE_BAD_RIGHTS = 35,      /* rights_len is not 256, or a right is above 2 */
    PRASHUNDE_BAD_CONTROL = 36,     /* control fields that cannot be; vs above 3 is one, vstart above 127, on the smaller board above 63 */
    PRASHUNDE_NO_GROUP = 38         /* no such register group (prashunde_view and prashunde_small_view alone) */
};

/*
 * One turn of the instruction `word`, of at most `allowance` elements from vstart up; UINT32_MAX runs it uncut. To go on after a pause or a
 * fault, call it again with the same word. Lengths count elements: bytes of registers, memory and rights, numbers of scalars.
 * Of a word that moves segments of 2 to 8 fields, an element is a segment: the allowance, passed, vstart and the mask count segments, and
 * nothing is moved of a segment that has a faulting field. Setting words, reductions, vcpop.m, vfirst.m, vmsbf.m, vmsif.m, vmsof.m,
 * viota.m, vcompress.vm, vmv.x.s and vmv.s.x take one turn at any allowance and pass 0. Elements that a slide up leaves as they are, below
 * its offset, are passed.
 *   passed    gets the number of elements passed, masked-off ones included
 *   address   gets the address of the first byte of the faulting element (answers 4 to 7), or of a segment's first faulting field;
 *             otherwise 0
 *   page      gets the page of that element or field where the page lacks the right that was wanted. Where it is misaligned or past the
 *             end of memory, and beside all other answers, 256
 *   right     gets the right that was wanted of that page, 1 by a load and 2 by a store; 0 beside page 256
 * Returns the answer. On 0, 1 and 4 to 7 vs becomes 3 (Dirty), also where nothing was passed. On 2 and 32 to 36 registers, scalars, memory
 * and control are as before, and passed and address get 0.
 */
uint64_t prashunde_turn(uint32_t word, uint32_t allowance,
                        uint8_t *registers, size_t registers_len,
                        uint64_t *scalars, size_t scalars_len,
                        uint8_t *memory, size_t memory_len,
                        const uint8_t *rights, size_t rights_len,
                        uint64_t control[6], uint64_t *passed, uint64_t *address,
                        uint64_t *page, uint64_t *right);

/*
 * The access check: what prashunde_turn would answer to `word` with an allowance of UINT32_MAX, before that is called. It is for
 * unit-stride loads and stores, plain, of masks or of whole registers; to every other word (strided and indexed ones and segments too) it
 * answers 2. Without a mask it tests the first address, the end of memory and each page once, and no element; under a mask the elements,
 * up to the first that would fault. Parameters as those of prashunde_turn; nothing but element, pages, page and right is changed, vs
 * neither.
 *   element   gets the element that would fault (answers 4 to 7): vstart after the turn. Otherwise 0
 *   pages     gets the number of pages tested: the different pages of the active elements before the faulting one, and of that one unless
 *             it is misaligned or past memory; of all active elements that remain where none would fault. At most 2. Beside 2 and 32 to
 *             36, 0
 *   page, right   get what the turn would store there (answers 4 to 7): the page that lacks the right, and the right that is wanted, or
 *             256 and 0 where that element is misaligned or past the end of memory. Beside all other answers 256 and 0
 * Returns 0 where the turn would finish, also where nothing remains; 4 to 7 where it would trap; 2 and 32 to 36 as the turn. Never 1.
 */
uint64_t prashunde_access_check(uint32_t word,
                                const uint8_t *registers, size_t registers_len,
                                const uint64_t *scalars, size_t scalars_len,
                                const uint8_t *memory, size_t memory_len,
                                const uint8_t *rights, size_t rights_len,
                                const uint64_t control[6], uint64_t *element, uint64_t *pages,
                                uint64_t *page, uint64_t *right);

/*
 * Reads the CSR with the number `csr`: 0x008 vstart, 0x009 vxsat, 0x00A vxrm, 0x00F vcsr, 0xC20 vl, 0xC21 vtype, 0xC22 vlenb.
 *   value   gets what is read, and 0 beside any other answer than 0
 * Returns 0; 36 for a control record that cannot be; then 2 where vs is 0 (Off), and for any other number.
 */
uint64_t prashunde_csr_read(uint64_t csr, const uint64_t control[6], uint64_t *value);

/*
 * Writes the low bits of `value` to a CSR in `control`: 7 bits to 0x008 vstart, 1 to 0x009 vxsat, 2 to 0x00A vxrm, 3 to 0x00F vcsr (vxrm
 * and vxsat); vs becomes 3 (Dirty). Returns 0; 36 for a control record that cannot be; then 2 where vs is 0 (Off), and for any other
 * number. Control is as before beside both.
 */
uint64_t prashunde_csr_write(uint64_t csr, uint64_t value, uint64_t control[6]);

/*
 * Where the group of `count` registers (1, 2, 4 or 8) from v`first` on lies; `first` is a multiple of `count`, and at most 31.
 *   start, size   the group is registers[start] to registers[start + size - 1]; both get 0 beside any other answer than 0
 * Returns 0; 32 where registers_len is not 512; then 38 where there is no such group.
 */
uint64_t prashunde_view(const uint8_t *registers, size_t registers_len, size_t first, size_t count, size_t *start, size_t *size);

/* Sets control to its state at reset, on either board: vtype is 2^63 (vill), vs is 1 (Initial), all others 0. */
void prashunde_reset(uint64_t control[6]);

/*
 * The same five calls on the smaller board, VLEN 64 and ELEN 32: parameters and answers as those of the first board's. registers_len is
 * 256, and vN begins at byte 8 * N. SEW is 8, 16 or 32 and LMUL from 1/4 up, SEW at most 32 * LMUL where that is below 1; any other vtype
 * but 2^63 is 36. EEW 64 is 2 everywhere: of a load or a store, of its indices, of a whole-register load. vmulh, vmulhu, vmulhsu and vsmul
 * are there at each SEW. vstart is at most 63 (else 36), a write to it keeps 6 bits, and 512 / SEW or more is 2, where on the first board
 * that is 1024 / SEW. 0xC22 vlenb reads 8. Scalars, addresses and offsets have 64 bits as there.
 */
uint64_t prashunde_small_turn(uint32_t word, uint32_t allowance,
                              uint8_t *registers, size_t registers_len,
                              uint64_t *scalars, size_t scalars_len,
                              uint8_t *memory, size_t memory_len,
                              const uint8_t *rights, size_t rights_len,
                              uint64_t control[6], uint64_t *passed, uint64_t *address,
                              uint64_t *page, uint64_t *right);
uint64_t prashunde_small_access_check(uint32_t word,
                                      const uint8_t *registers, size_t registers_len,
                                      const uint64_t *scalars, size_t scalars_len,
                                      const uint8_t *memory, size_t memory_len,
                                      const uint8_t *rights, size_t rights_len,
                                      const uint64_t control[6], uint64_t *element, uint64_t *pages,
                                      uint64_t *page, uint64_t *right);
uint64_t prashunde_small_csr_read(uint64_t csr, const uint64_t control[6], uint64_t *value);
uint64_t prashunde_small_csr_write(uint64_t csr, uint64_t value, uint64_t control[6]);
uint64_t prashunde_small_view(const uint8_t *registers, size_t registers_len, size_t first, size_t count, size_t *start, size_t *size);

/* The greatest length of what a sheet prints: a buffer of this length is long enough for every sheet. */
#define PRASHUNDE_SHEET_MAX 1660000

/*
 * Runs a sheet on a machine of its own, with the first board, as the program sheet_main does. Any bytes will do: a bad sheet prints
 * sheet=bad and its first bad line. Sheet and buffer do not overlap.
 *   out   gets the text, with no NUL after it, where out_len is at least its length. A shorter buffer is left as it was, and so are the
 *         bytes behind the text
 * Returns the length of the text, also where it does not fit. To ask for the length alone, give an out_len of 0 and a pointer that is
 * not NULL.
 */
uint64_t prashunde_sheet(const uint8_t *sheet, size_t sheet_len, uint8_t *out, size_t out_len);

#ifdef __cplusplus
}
#endif

#endif
