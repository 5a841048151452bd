/*
 * reu.h: the MOS 8726 RAM expansion controller (REU) with 128, 256 or 512 KiB, bus cycle by bus cycle.
 *
 * The library is a port of the controller of the Breadbin466 emulator (MIT licence, see NOTICE). With 512 KiB, the only
 * size that the original has, it answers as that does, but for two marks (see AN ADDRESS THAT PASSES ITS TOP): that is
 * shown by comparison runs. That each call answers and leaves what a written definition says is proved, of the source on
 * the language's abstract machine (the compiler's back end is not covered).
 * It allocates nothing and keeps nothing between calls: everything stands in three buffers of the host.
 *
 *   image    REU_IMAGE_SIZE bytes  the whole controller: registers, flags, the running transfer and a count
 *   bus      65,536 bytes          the memory that the controller sees as the C64's
 *   storage  524,288 bytes         the expansion memory; 131,072 or 262,144 bytes after reu_set_size()
 *
 * A store of one byte, from $1000 to expansion address 0:
 *
 *   reu_new(image, REU_IMAGE_SIZE);
 *   reu_set_enabled(image, REU_IMAGE_SIZE, storage, REU_STORAGE_SIZE, 1);
 *   reu_write(image, REU_IMAGE_SIZE, 0xDF00 + REU_C64_ADDRESS_HIGH, 0x10);
 *   reu_write(image, REU_IMAGE_SIZE, 0xDF00 + REU_TRANSFER_LENGTH_LOW, 1);
 *   reu_write(image, REU_IMAGE_SIZE, 0xDF00 + REU_TRANSFER_LENGTH_HIGH, 0);
 *   reu_write(image, REU_IMAGE_SIZE, 0xDF00 + REU_COMMAND, REU_STORE | REU_COMMAND_FF00_DISABLE | REU_COMMAND_EXECUTE);
 *   reu_run_reu_cycle(image, REU_IMAGE_SIZE, bus, REU_BUS_SIZE, storage, REU_STORAGE_SIZE, 1, cycle, 0, 1);
 *
 * ANSWERS AND REFUSALS
 * Each call answers 16,777,216 times a refusal number plus a value; reu_refusal() and reu_value() take it apart.
 * Refusal 0 means that the call was accepted. A refused call has value 0 and changes no byte of any buffer.
 * The tests come in this order, each only where the call takes that buffer or that size:
 *
 *   1  the image's length is not REU_IMAGE_SIZE
 *   2  the image has a field that no controller can have (see THE IMAGE); reu_new() does not test this
 *   3  the bus's length is not 65,536
 *   4  the storage's length is not the size that is set
 *   5  the size to be set is not 131,072, 262,144 or 524,288
 *   6  a size is to be set, and the storage is attached
 *
 * Nothing else is refused: every address, byte, index, cycle number and flag is accepted. An image made by reu_new()
 * and changed only by these calls is never refused. Where nothing else is said below, the value is 0.
 *
 * WHAT THE HOST MUST KEEP
 * - Each pointer is valid for the length given beside it, for writing too where it is not const.
 * - The buffers of one call do not overlap.
 * - While a call runs, nobody else uses its buffers. Calls on different buffers may run at the same time.
 * A null pointer with length 0 is allowed: it is a buffer of the wrong length, and refused.
 *
 * ARGUMENTS OF SEVERAL CALLS
 * Flags are 32 bits wide: 0 is false, every other number is true.
 * addr          a register's address; the index of the register is addr AND $1F
 * cycle         the number of the bus cycle; only whether it is odd matters
 * ba_high_phi1  true if the VIC's BA is high at PHI1 of this cycle: the input that holds a transfer
 * ba_high       true if BA is high in this cycle; false beside a true ba_high_phi1 means that BA falls late in it
 * ba_low        true if the VIC has BA low; matters only in the tick that ends a swap (see reu_cpu_ready_after_dma)
 *
 * THE COUNT OF GRANTED CYCLES
 * So that a host can show how many bus cycles a command was granted, the controller counts: one more for each
 * reu_run_reu_cycle() whose grant is Transfer, up to 4,294,967,295, where the count stays. reu_new(), reu_reset() and
 * each start that has storage, by reu_write() or reu_trigger_ff00(), set it to 0. Nothing else changes it: no other
 * call, not arming, not the end of a command, not a start without storage. reu_granted_cycles() reads it from an image;
 * no register shows it. The original has no such count.
 *
 * AN ADDRESS THAT PASSES ITS TOP
 * So that a host can mark it, reu_tick_dma() and reu_run_reu_cycle() report it with their values: REU_PASSED_C64 more
 * if the call completed a byte with which the C64 address stepped from $FFFF to 0, REU_PASSED_EXPANSION more if the
 * expansion address stepped from $FFFFFF to 0. So it is with every byte that is completed, the last of a block too, one
 * that differs in a verify, and one that a recall repeats. A fixed address does not step and never reports. A call that
 * completes no byte reports neither: the first tick of a swap's byte, a refresh, a verify tail, Hold, a cycle of the
 * CPU, a tick without a transfer, a refused call. That the storage begins anew behind its last byte is not reported.
 * Bit 0 is what the original answers, which has no such marks: a host tests reu_value(answer) & 1, and not == 1.
 *
 * LEFT TO THE HOST
 * Address map, VIC and cartridges, and the enabled flag: no call obeys it. A host passes register accesses on only
 * while the controller is enabled.
 */
#ifndef REU_H
#define REU_H

#include <stddef.h>
#include <stdint.h>

#ifdef __cplusplus
extern "C" {
#endif

#define REU_VERSION "0.5.4"

/* Lengths of the buffers, a storage's if no other is set; REU_IMAGE_SIZE stands behind the image's places. */
#define REU_BUS_SIZE 65536
#define REU_STORAGE_SIZE REU_SIZE_512K

/* Sizes of a storage, for reu_set_size(): the 1700's, the 1764's and the 1750's. */
#define REU_SIZE_128K 131072
#define REU_SIZE_256K 262144
#define REU_SIZE_512K 524288

/* Refusals. */
#define REU_ACCEPTED 0
#define REU_REFUSED_IMAGE_LENGTH 1
#define REU_REFUSED_IMAGE_FIELD 2
#define REU_REFUSED_BUS_LENGTH 3
#define REU_REFUSED_STORAGE_LENGTH 4
#define REU_REFUSED_SIZE 5
#define REU_REFUSED_ATTACHED 6

/* Grants: the value of reu_bus_action(). */
#define REU_GRANT_CPU 0
#define REU_GRANT_HOLD 1
#define REU_GRANT_TRANSFER 2

/* Marks: what is added to the value of reu_tick_dma() and reu_run_reu_cycle(). */
#define REU_PASSED_C64 2
#define REU_PASSED_EXPANSION 4

/* Kinds of access: the value of reu_c64_access(), divided by 65,536. */
#define REU_ACCESS_NONE 0
#define REU_ACCESS_READ 1
#define REU_ACCESS_WRITE 2

/* Registers, by index. The C64 has register 0 at $DF00. */
#define REU_REGISTER_COUNT 11
#define REU_STATUS 0
#define REU_COMMAND 1
#define REU_C64_ADDRESS_LOW 2
#define REU_C64_ADDRESS_HIGH 3
#define REU_EXPANSION_ADDRESS_LOW 4
#define REU_EXPANSION_ADDRESS_HIGH 5
#define REU_EXPANSION_ADDRESS_BANK 6
#define REU_TRANSFER_LENGTH_LOW 7
#define REU_TRANSFER_LENGTH_HIGH 8
#define REU_INTERRUPT_MASK 9
#define REU_ADDRESS_CONTROL 10

/* STATUS. VERSION is the chip-size mark, 0 for 128 KiB and 1 for the other sizes: reads, starts and resets keep it. */
#define REU_STATUS_VERSION 0x10
#define REU_STATUS_VERIFY_ERROR 0x20
#define REU_STATUS_END_OF_BLOCK 0x40
#define REU_STATUS_IRQ_PENDING 0x80

/* COMMAND: a transfer type in bits 0 and 1, and these bits. With FF00_DISABLE it starts at once. */
#define REU_STORE 0
#define REU_RECALL 1
#define REU_SWAP 2
#define REU_VERIFY 3
#define REU_COMMAND_FF00_DISABLE 0x10
#define REU_COMMAND_AUTOLOAD 0x20
#define REU_COMMAND_EXECUTE 0x80

/* Interrupt mask. */
#define REU_INTERRUPT_VERIFY_ENABLE 0x20
#define REU_INTERRUPT_END_OF_BLOCK_ENABLE 0x40
#define REU_INTERRUPT_GLOBAL_ENABLE 0x80

/* Address control. */
#define REU_ADDRESS_CONTROL_FIX_EXPANSION 0x40
#define REU_ADDRESS_CONTROL_FIX_C64 0x80

/*
 * THE IMAGE
 * An image may be copied, kept in a file and compared byte by byte: two accepted images are equal exactly if their
 * controllers are. An image, a bus and a storage together are a saved machine. Numbers of more than one byte have their
 * low byte first. Registers, shadows and the count may have any value, and while a transfer is running so may both its
 * addresses, its remaining length and its latch; the other fields are refused (2) outside the values given, and so are
 * a chip-size mark in STATUS that is not that of the size, a transfer while the storage is not attached, a write phase
 * without swap, and a verify tail without verify or with a remaining length other than 1. Without a transfer all bytes
 * from REU_IMAGE_TYPE up to REU_IMAGE_GRANTED_CYCLES are 0.
 * Images of earlier releases have 34 bytes (0.1.0) or 38 (0.2.0, 0.3.0) and are refused (1), whatever they hold. One of
 * 0.4.0 is an image of 512 KiB, and has its mark if it was made by reu_new() and changed only by calls.
 * Each place is the one before plus its width, so a field reaches up to the next place.
 */
#define REU_IMAGE_REGISTERS 0                                    /* by index, as held */
#define REU_IMAGE_SHADOW_C64 (REU_IMAGE_REGISTERS + REU_REGISTER_COUNT) /* for Autoload: C64 address */
#define REU_IMAGE_SHADOW_EXPANSION (REU_IMAGE_SHADOW_C64 + 2)    /* expansion address */
#define REU_IMAGE_SHADOW_LENGTH (REU_IMAGE_SHADOW_EXPANSION + 3) /* length */
#define REU_IMAGE_FLAGS (REU_IMAGE_SHADOW_LENGTH + 2)            /* REU_FLAG_ENABLED to REU_FLAG_LATE_FALL */
#define REU_IMAGE_MORE_FLAGS (REU_IMAGE_FLAGS + 1)               /* REU_FLAG_REFRESH to REU_FLAG_SIZE only */
#define REU_IMAGE_DELAY (REU_IMAGE_MORE_FLAGS + 1)               /* 0 to 2 */
#define REU_IMAGE_TRANSFER (REU_IMAGE_DELAY + 1)                 /* 1: a transfer is running; else 0 */
#define REU_IMAGE_TYPE (REU_IMAGE_TRANSFER + 1)                  /* REU_STORE to REU_VERIFY */
#define REU_IMAGE_PHASE (REU_IMAGE_TYPE + 1)                     /* 0 read, 1 write */
#define REU_IMAGE_C64_ADDRESS (REU_IMAGE_PHASE + 1)              /* where the transfer is on the C64's side */
#define REU_IMAGE_EXPANSION_ADDRESS (REU_IMAGE_C64_ADDRESS + 2)  /* where it is in the expansion memory */
#define REU_IMAGE_REMAINING (REU_IMAGE_EXPANSION_ADDRESS + 3)    /* the bytes that are left: 0 means 65,536 */
#define REU_IMAGE_LATCH (REU_IMAGE_REMAINING + 2)                /* any byte */
#define REU_IMAGE_TRANSFER_FLAGS (REU_IMAGE_LATCH + 1)           /* REU_TRANSFER_FIX_C64 to REU_TRANSFER_TAIL only */
#define REU_IMAGE_GRANTED_CYCLES (REU_IMAGE_TRANSFER_FLAGS + 1)  /* the count of granted cycles: 4 bytes */
#define REU_IMAGE_SIZE (REU_IMAGE_GRANTED_CYCLES + 4)            /* the length of an image: 37 */

/* Byte REU_IMAGE_FLAGS. */
#define REU_FLAG_ENABLED 0x01
#define REU_FLAG_INTERRUPT 0x02
#define REU_FLAG_ATTACHED 0x04
#define REU_FLAG_ARMED 0x08
#define REU_FLAG_BA_WAS_HIGH 0x10
#define REU_FLAG_RECALL_REPEAT 0x20
#define REU_FLAG_TERMINAL_WRITE 0x40
#define REU_FLAG_LATE_FALL 0x80

/* Byte REU_IMAGE_MORE_FLAGS. The bits of SIZE hold one of the three behind it. */
#define REU_FLAG_REFRESH 0x01
#define REU_FLAG_RELEASE 0x02
#define REU_FLAG_SIZE 0x0C
#define REU_FLAG_SIZE_512K 0x00
#define REU_FLAG_SIZE_256K 0x04
#define REU_FLAG_SIZE_128K 0x08

/* Byte REU_IMAGE_TRANSFER_FLAGS. */
#define REU_TRANSFER_FIX_C64 0x01
#define REU_TRANSFER_FIX_EXPANSION 0x02
#define REU_TRANSFER_AUTOLOAD 0x04
#define REU_TRANSFER_FIRST_BYTE 0x08
#define REU_TRANSFER_ODD_PARITY 0x10
#define REU_TRANSFER_TAIL 0x20

/* The refusal of an answer: REU_ACCEPTED, or one of REU_REFUSED_... */
static inline uint32_t reu_refusal(uint32_t answer) {
    return answer >> 24;
}

/* The value of an answer: 0 if it was refused. */
static inline uint32_t reu_value(uint32_t answer) {
    return answer & 0xFFFFFFu;
}

/* The kind of an accepted answer of reu_c64_access(): REU_ACCESS_NONE, REU_ACCESS_READ or REU_ACCESS_WRITE. */
static inline uint32_t reu_access_kind(uint32_t answer) {
    return reu_value(answer) >> 16;
}

/* The address of an accepted answer of reu_c64_access(); 0 if there is no access. */
static inline uint32_t reu_access_address(uint32_t answer) {
    return answer & 0xFFFFu;
}

/* The interrupt level of an image of REU_IMAGE_SIZE bytes: 1 while the controller asks for an interrupt, else 0. */
static inline uint32_t reu_interrupt_level(const uint8_t *image) {
    return (image[REU_IMAGE_FLAGS] & REU_FLAG_INTERRUPT) != 0 ? 1u : 0u;
}

/*
 * The count of granted cycles of an image of REU_IMAGE_SIZE bytes. Only its four bytes are looked at, whether the calls
 * accept the image or refuse it (2).
 */
static inline uint32_t reu_granted_cycles(const uint8_t *image) {
    const uint8_t *count = image + REU_IMAGE_GRANTED_CYCLES;
    return (uint32_t)count[0] | (uint32_t)count[1] << 8 | (uint32_t)count[2] << 16 | (uint32_t)count[3] << 24;
}

/*
 * How many bytes are left of the transfer of an image of REU_IMAGE_SIZE bytes: 1 to 65,536, and 0 without a transfer. Its
 * two bytes alone do not say that: both are 0 for 65,536, and without a transfer. Only they and REU_IMAGE_TRANSFER are
 * looked at, whether the calls accept the image or refuse it (2).
 */
static inline uint32_t reu_remaining(const uint8_t *image) {
    const uint8_t *bytes = image + REU_IMAGE_REMAINING;
    uint32_t left = (uint32_t)bytes[0] | (uint32_t)bytes[1] << 8;
    return image[REU_IMAGE_TRANSFER] == 0 ? 0u : left == 0 ? 65536u : left;
}

/*
 * The size that an image of REU_IMAGE_SIZE bytes sets, attached or not: the length of the storage that belongs to it.
 * Only the bits of REU_FLAG_SIZE are looked at, whether the calls accept the image or refuse it (2). Bits that are none
 * of the three sizes, which no accepted image has, give 0.
 */
static inline uint32_t reu_storage_size(const uint8_t *image) {
    uint32_t size = image[REU_IMAGE_MORE_FLAGS] & REU_FLAG_SIZE;
    return size == REU_FLAG_SIZE_512K   ? REU_SIZE_512K
           : size == REU_FLAG_SIZE_256K ? REU_SIZE_256K
           : size == REU_FLAG_SIZE_128K ? REU_SIZE_128K
                                        : 0u;
}

/* ---- a controller and its storage ---- */

/*
 * Makes a new controller: disabled, no storage attached, its size 524,288, idle, BA was high, the count of granted
 * cycles 0. Whatever the image held is gone. Refuses 1 only.
 */
uint32_t reu_new(uint8_t *image, size_t image_len);

/*
 * Resets the controller: all is as after reu_new(), the count of granted cycles too, but enabled, attached, the size
 * with its mark in STATUS, and the storage are kept. hard_reset makes no difference. Refuses 1, 2.
 */
uint32_t reu_reset(uint8_t *image, size_t image_len, uint32_t hard_reset);

/*
 * Sets the size of the storage: REU_SIZE_128K, REU_SIZE_256K or REU_SIZE_512K; all 64 bits of size count. From then on
 * every call that takes a storage takes one of this size. Bit 4 of STATUS becomes the size's mark at once, and nothing
 * else changes. A size may be set more than once, but only before the first enabling attaches the storage: after it the
 * size that is set already is refused too.
 * With each size the expansion address has 24 bits, the bank reads OR $F8 and the counters step alike; the size decides
 * only at which place of the storage an address is (see reu_tick_dma). Refuses 1, 2, 5, 6.
 */
uint32_t reu_set_size(uint8_t *image, size_t image_len, uint64_t size);

/*
 * Enables or disables the controller. Enabling attaches the storage, if it is not attached yet, and then sets every
 * byte of it to 0; one that is attached keeps its bytes. Disabling drops the transfer, clears what a start clears (see
 * reu_write) and lowers the interrupt level; it keeps the registers, the shadows, the storage and what is known of BA.
 * Neither changes the size or the count of granted cycles. Refuses 1, 2, 4.
 */
uint32_t reu_set_enabled(uint8_t *image, size_t image_len, uint8_t *storage, size_t storage_len, uint32_t enabled);

/* Answers 1 if the storage is attached, else 0. Refuses 1, 2. */
uint32_t reu_storage_present(const uint8_t *image, size_t image_len);

/* Answers the size of the storage if it is attached, else 0; reu_storage_size() gives it before too. Refuses 1, 2. */
uint32_t reu_capacity_bytes(const uint8_t *image, size_t image_len);

/* ---- registers ---- */

/*
 * Reads a register as the CPU does and answers its byte. Index 11 to 31 gives $FF.
 * Reading STATUS answers the byte as it was, then clears its bits 5, 6 and 7 and lowers the interrupt level.
 * The bank reads OR $F8, the interrupt mask OR $1F, address control OR $3F. Refuses 1, 2.
 */
uint32_t reu_read(uint8_t *image, size_t image_len, uint16_t addr);

/*
 * Writes a register as the CPU does. STATUS and index 11 to 31 ignore it.
 * - COMMAND keeps all bits and drops an armed trigger; then, if bit 7 is set, it starts the transfer (bit 4 set) or
 *   arms the trigger (bit 4 clear). It does not stop a running transfer unless it starts another.
 * - A start clears armed, recall repeat, terminal write, delay, refresh and release. Without an attached storage it
 *   then clears bit 7 of COMMAND, and that is all. With one, STATUS keeps only bit 4, the interrupt level falls, the
 *   count of granted cycles becomes 0, and the transfer begins with the addresses and the length that the registers
 *   hold, as reu_debug_register() gives them (length 0 means 65,536), and with the type, the Autoload bit and the fix
 *   bits of that moment.
 * - The low or high byte of an address or of the length changes the shadow, and both bytes are shown from the shadow.
 *   The bank changes itself and its shadow, and is stored OR $F8.
 * - The interrupt mask is stored OR $1F. An event that STATUS shows raises the interrupt if the mask now lets it.
 * - Address control is stored OR $3F.
 * Refuses 1, 2.
 */
uint32_t reu_write(uint8_t *image, size_t image_len, uint16_t addr, uint8_t value);

/*
 * Answers the byte that the controller holds in a register, without the effects of a read: nothing is cleared, and no
 * bit is set that is not held. The index is not folded: 11 and above give $FF. Refuses 1, 2.
 */
uint32_t reu_debug_register(const uint8_t *image, size_t image_len, uint64_t index);

/*
 * The CPU has made the access to $FF00: starts the transfer (see reu_write; with storage the count of granted cycles
 * becomes 0) if it is armed and COMMAND still has bit 7; otherwise nothing happens. Refuses 1, 2.
 */
uint32_t reu_trigger_ff00(uint8_t *image, size_t image_len);

/* ---- bus cycles ---- */

/*
 * Runs one bus cycle: decides as reu_bus_action() and, on Transfer, does what reu_tick_dma() does and adds one to the
 * count of granted cycles, also where the grant comes of a terminal write or a delay and no transfer is running. The
 * count stays at 4,294,967,295. Neither Hold nor Cpu is counted, and neither of the two calls counts by itself.
 * Answers 0 if the CPU has this cycle, 1 if the controller keeps the CPU from it (Hold or Transfer), plus the marks of
 * a byte that the tick completed.
 * A host calls it once in each cycle. Refuses 1, 2, 3, 4.
 */
uint32_t reu_run_reu_cycle(uint8_t *image, size_t image_len, uint8_t *bus, size_t bus_len, uint8_t *storage,
                           size_t storage_len, uint32_t ba_high, uint64_t cycle, uint32_t ba_low,
                           uint32_t ba_high_phi1);

/*
 * Decides who has this cycle, the first half of reu_run_reu_cycle(). A fall or a rise is ba_high_phi1 against that of
 * the cycle before. A rise in a swap's write phase, if this cycle is odd or even as the one in which the byte was read,
 * gives the storage its byte back and returns to the read phase. A fall before the first byte of a recall, while
 * COMMAND has bit 4, sets recall repeat. Then the first of these decides:
 * - Terminal write is set: REU_GRANT_TRANSFER, and it is cleared.
 * - The delay is not 0: it counts down; REU_GRANT_TRANSFER where it comes to 0, else REU_GRANT_HOLD.
 * - A fall in a swap's read phase: before the first byte REU_GRANT_HOLD; else, at the last, REU_GRANT_TRANSFER, and
 *   terminal write is set; at any other REU_GRANT_HOLD, and the delay is 2.
 * - A fall in a swap's write phase, unless refresh is set: REU_GRANT_HOLD. If the fall was late, refresh is set and the
 *   delay is 1; else the storage gets its byte back and the swap returns to the read phase.
 * - A fall in a recall, unless refresh is set: REU_GRANT_HOLD at the last byte, REU_GRANT_TRANSFER at any other.
 * - Else REU_GRANT_CPU without a transfer; with one REU_GRANT_TRANSFER if ba_high_phi1 is true, REU_GRANT_HOLD if not.
 * So a terminal write or a delay answers without a transfer too; ticks of the host's own can leave them over. BA is
 * kept track of without a transfer as well: a host asks once in each cycle. Refuses 1, 2, 4.
 */
uint32_t reu_bus_action(uint8_t *image, size_t image_len, uint8_t *storage, size_t storage_len, uint32_t ba_high,
                        uint32_t ba_high_phi1, uint64_t cycle);

/*
 * Advances the transfer by one granted cycle, the second half of reu_run_reu_cycle(): store, recall and verify take one
 * tick a byte, swap two or, if BA interrupts it, more. Without a transfer nothing happens.
 * - A tick with refresh set clears it and only reads the C64's byte into the storage once more.
 * - After each byte the addresses step up unless fixed, C64 from $FFFF to 0, expansion from $FFFFFF to 0, and the
 *   length steps down to 1, where it stays; the registers hold them. The expansion address modulo the storage's size is
 *   the place in the storage.
 * - A byte that differs in a verify sets bit 5 of STATUS and ends the command. If it was the last but one, one more
 *   tick compares the last byte before the end, moves no counter, leaves bit 5, and sets bit 6 exactly if it is equal.
 * - With recall repeat set, a recall that is past its first byte writes the latch (the byte that it wrote last) instead
 *   of the storage's byte, and clears recall repeat.
 * - The end of the block sets bit 6 of STATUS. A command that ends clears bit 7 of COMMAND and sets its bit 4, restores
 *   addresses and length from the shadows if it started with Autoload, and raises the interrupt if the mask lets it.
 * Answers 1 if a transfer is running afterwards, else 0, plus the marks of a byte that it completed: REU_PASSED_C64 and
 * REU_PASSED_EXPANSION, where that address passed its top. Refuses 1, 2, 3, 4.
 */
uint32_t reu_tick_dma(uint8_t *image, size_t image_len, uint8_t *bus, size_t bus_len, uint8_t *storage,
                      size_t storage_len, uint64_t cycle, uint32_t ba_low);

/* Answers 1 while a transfer is running, else 0. Refuses 1, 2. */
uint32_t reu_dma_active(const uint8_t *image, size_t image_len);

/*
 * Answers what the next tick does on the C64's side: 65,536 times the kind, plus the address. reu_access_kind() and
 * reu_access_address() take it apart. Refuses 1, 2.
 */
uint32_t reu_c64_access(const uint8_t *image, size_t image_len);

/*
 * May the CPU go on after a transfer? Answers 1 if BA is high or the release flag is set, else 0, and clears the flag.
 * Only a swap that ends its block in a tick with ba_low 0 sets the flag. Refuses 1, 2.
 */
uint32_t reu_cpu_ready_after_dma(uint8_t *image, size_t image_len, uint32_t ba_high);

#ifdef __cplusplus
}
#endif

#endif
