/*
 * A test host in C: a store, a swap, a start by FF00, a block over the top of the memory, one of full length, a saved
 * machine that is written to a file and opened again, and a unit of 128 KiB. It checks every result, says what it did,
 * and answers 0 if all was as expected.
 *
 *   cc -Iinclude examples/host.c target/staticlib/libreu.a -o host && ./host
 *
 * The saved machine goes to the file named by the first argument, or to machine.reu, and is removed at the end.
 */
#include <stdio.h>
#include <stdlib.h>
#include <string.h>

#include "reu.h"

/* The three buffers that a host lends, the size of the storage, and its clock. */
struct machine {
    uint8_t *image;
    uint8_t *bus;
    uint8_t *storage;
    uint32_t size;
    uint64_t cycle;
};

static int failures;

/* Every check of this program. */
static void expect(const char *what, unsigned long got, unsigned long wanted) {
    if (got != wanted) {
        printf("  WRONG: %s is $%lX, expected $%lX\n", what, got, wanted);
        failures++;
    }
}

/* The value of an answer that must have been accepted. */
static uint32_t accepted(const char *what, uint32_t answer) {
    expect(what, reu_refusal(answer), REU_ACCEPTED);
    return reu_value(answer);
}

static uint8_t *buffer(size_t length) {
    uint8_t *bytes = (uint8_t *)malloc(length);
    if (bytes == NULL) {
        fprintf(stderr, "no memory\n");
        exit(2);
    }
    return bytes;
}

/* Buffers with nothing in them yet. */
static struct machine machine_empty(uint32_t size) {
    struct machine m;
    m.image = buffer(REU_IMAGE_SIZE);
    m.bus = buffer(REU_BUS_SIZE);
    m.storage = buffer(size);
    m.size = size;
    m.cycle = 0;
    return m;
}

/* The size is set before the storage is attached, and need not be where it is REU_STORAGE_SIZE. */
static struct machine machine_new(uint32_t size) {
    struct machine m = machine_empty(size);
    memset(m.bus, 0, REU_BUS_SIZE);
    accepted("new", reu_new(m.image, REU_IMAGE_SIZE));
    accepted("set_size", reu_set_size(m.image, REU_IMAGE_SIZE, size));
    accepted("enable", reu_set_enabled(m.image, REU_IMAGE_SIZE, m.storage, m.size, 1));
    expect("capacity", accepted("capacity_bytes", reu_capacity_bytes(m.image, REU_IMAGE_SIZE)), size);
    return m;
}

static void machine_free(struct machine *m) {
    free(m->image);
    free(m->bus);
    free(m->storage);
}

static void write_register(struct machine *m, int index, unsigned value) {
    accepted("write", reu_write(m->image, REU_IMAGE_SIZE, (uint16_t)(0xDF00 + index), (uint8_t)value));
}

static uint32_t register_held(const struct machine *m, int index) {
    return accepted("debug_register", reu_debug_register(m->image, REU_IMAGE_SIZE, (uint64_t)index));
}

/* Addresses, length and COMMAND, as a program on the C64 would write them. */
static void command(struct machine *m, unsigned c64, unsigned long expansion, unsigned length, unsigned value) {
    write_register(m, REU_C64_ADDRESS_LOW, c64 & 0xFF);
    write_register(m, REU_C64_ADDRESS_HIGH, c64 >> 8);
    write_register(m, REU_EXPANSION_ADDRESS_LOW, expansion & 0xFF);
    write_register(m, REU_EXPANSION_ADDRESS_HIGH, (expansion >> 8) & 0xFF);
    write_register(m, REU_EXPANSION_ADDRESS_BANK, (expansion >> 16) & 0xFF);
    write_register(m, REU_TRANSFER_LENGTH_LOW, length & 0xFF);
    write_register(m, REU_TRANSFER_LENGTH_HIGH, length >> 8);
    write_register(m, REU_COMMAND, value);
}

/* One bus cycle with BA high. Answers 1 if the controller had it, and the marks of an address that passed its top. */
static uint32_t run_cycle(struct machine *m) {
    return accepted("run_reu_cycle", reu_run_reu_cycle(m->image, REU_IMAGE_SIZE, m->bus, REU_BUS_SIZE, m->storage,
                                                       m->size, 1, m->cycle++, 0, 1));
}

/* Cycles until the CPU has the bus again, but at most 100. Answers how many the controller had. */
static unsigned run_to_end(struct machine *m) {
    unsigned cycles = 0;
    while (cycles < 100 && (run_cycle(m) & 1) != 0) {
        cycles++;
    }
    return cycles;
}

static void store(struct machine *m) {
    printf("store: 5 bytes from $1000 to expansion $010000\n");
    memcpy(m->bus + 0x1000, "HELLO", 5);
    command(m, 0x1000, 0x010000, 5, REU_STORE | REU_COMMAND_FF00_DISABLE | REU_COMMAND_EXECUTE);
    uint32_t access = reu_c64_access(m->image, REU_IMAGE_SIZE);
    expect("kind of access", reu_access_kind(access), REU_ACCESS_READ);
    expect("address of access", reu_access_address(access), 0x1000);
    unsigned cycles = run_to_end(m);
    expect("cycles", cycles, 5);
    expect("bytes differ", memcmp(m->storage + 0x010000, "HELLO", 5) != 0, 0);
    expect("STATUS", register_held(m, REU_STATUS), REU_STATUS_VERSION | REU_STATUS_END_OF_BLOCK);
    expect("C64 address low", register_held(m, REU_C64_ADDRESS_LOW), 0x05);
    printf("  %u cycles, storage holds %.5s\n", cycles, (const char *)(m->storage + 0x010000));
}

static void swap(struct machine *m) {
    printf("swap: 5 bytes at $2000 with expansion $010000, Autoload, interrupt at the end\n");
    memcpy(m->bus + 0x2000, "WORLD", 5);
    write_register(m, REU_INTERRUPT_MASK, REU_INTERRUPT_GLOBAL_ENABLE | REU_INTERRUPT_END_OF_BLOCK_ENABLE);
    command(m, 0x2000, 0x010000, 5,
            REU_SWAP | REU_COMMAND_FF00_DISABLE | REU_COMMAND_AUTOLOAD | REU_COMMAND_EXECUTE);
    expect("level while it runs", reu_interrupt_level(m->image), 0);
    unsigned cycles = run_to_end(m);
    expect("cycles", cycles, 10);
    expect("bus differs", memcmp(m->bus + 0x2000, "HELLO", 5) != 0, 0);
    expect("storage differs", memcmp(m->storage + 0x010000, "WORLD", 5) != 0, 0);
    expect("C64 address low", register_held(m, REU_C64_ADDRESS_LOW), 0x00);
    expect("length", register_held(m, REU_TRANSFER_LENGTH_LOW), 5);
    expect("level at the end", reu_interrupt_level(m->image), 1);
    expect("STATUS", accepted("read", reu_read(m->image, REU_IMAGE_SIZE, 0xDF00 + REU_STATUS)), 0xD0);
    expect("level after STATUS was read", reu_interrupt_level(m->image), 0);
    expect("ready with BA low", accepted("ready", reu_cpu_ready_after_dma(m->image, REU_IMAGE_SIZE, 0)), 1);
    expect("ready once more", accepted("ready", reu_cpu_ready_after_dma(m->image, REU_IMAGE_SIZE, 0)), 0);
    printf("  %u cycles, bus holds %.5s, storage %.5s, the registers are restored\n", cycles,
           (const char *)(m->bus + 0x2000), (const char *)(m->storage + 0x010000));
}

static void start_by_ff00(struct machine *m) {
    printf("FF00: a recall of 5 bytes to $3000 waits for the access to $FF00\n");
    command(m, 0x3000, 0x010000, 5, REU_RECALL | REU_COMMAND_EXECUTE);
    expect("cycles before FF00", run_to_end(m), 0);
    expect("byte before FF00", m->bus[0x3000], 0);
    accepted("trigger_ff00", reu_trigger_ff00(m->image, REU_IMAGE_SIZE));
    expect("active", accepted("dma_active", reu_dma_active(m->image, REU_IMAGE_SIZE)), 1);
    unsigned cycles = run_to_end(m);
    expect("cycles", cycles, 5);
    expect("bus differs", memcmp(m->bus + 0x3000, "WORLD", 5) != 0, 0);
    printf("  %u cycles, bus holds %.5s\n", cycles, (const char *)(m->bus + 0x3000));
}

/* The third of five bytes is at $FFFF, the fourth at 0: the cycle of the third says so. */
static void over_the_top(struct machine *m) {
    printf("over the top: a recall of 5 bytes to $FFFD\n");
    command(m, 0xFFFD, 0x010000, 5, REU_RECALL | REU_COMMAND_FF00_DISABLE | REU_COMMAND_EXECUTE);
    for (uint32_t i = 0; i < 5; i++) {
        expect("cycle", run_cycle(m), i == 2 ? 1 + REU_PASSED_C64 : 1);
    }
    expect("bytes below differ", memcmp(m->bus + 0xFFFD, "WOR", 3) != 0, 0);
    expect("bytes from 0 on differ", memcmp(m->bus, "LD", 2) != 0, 0);
    printf("  the third of 5 cycles says that the C64 address passed $FFFF\n");
}

/* Length 0 means 65,536, which is a 0 in the image too: reu_remaining() tells it from that of no transfer. */
static void full_length(struct machine *m) {
    printf("full length: a store of 65,536 bytes from $2000, cut off after one\n");
    command(m, 0x2000, 0x020000, 0, REU_STORE | REU_COMMAND_FF00_DISABLE | REU_COMMAND_EXECUTE);
    expect("bytes left at the start", reu_remaining(m->image), 65536);
    expect("cycle", run_cycle(m), 1);
    expect("bytes left after a cycle", reu_remaining(m->image), 65535);
    accepted("reset", reu_reset(m->image, REU_IMAGE_SIZE, 0));
    expect("bytes left after a reset", reu_remaining(m->image), 0);
    printf("  65,536 bytes were left, 65,535 after a cycle, none after a reset\n");
}

static int machine_equal(const struct machine *a, const struct machine *b) {
    return a->size == b->size && memcmp(a->image, b->image, REU_IMAGE_SIZE) == 0 &&
           memcmp(a->bus, b->bus, REU_BUS_SIZE) == 0 && memcmp(a->storage, b->storage, a->size) == 0;
}

static void machine_save(const struct machine *m, const char *path) {
    FILE *file = fopen(path, "wb");
    int saved = file != NULL && fwrite(m->image, REU_IMAGE_SIZE, 1, file) == 1 &&
                fwrite(m->bus, REU_BUS_SIZE, 1, file) == 1 && fwrite(m->storage, m->size, 1, file) == 1;
    if (file == NULL || fclose(file) != 0 || !saved) {
        perror(path);
        exit(2);
    }
}

/* The image comes first in the file and says how long the storage is. */
static struct machine machine_open(const char *path, uint64_t cycle) {
    uint8_t image[REU_IMAGE_SIZE] = {0};
    FILE *file = fopen(path, "rb");
    int opened = file != NULL && fread(image, REU_IMAGE_SIZE, 1, file) == 1;
    struct machine m = machine_empty(reu_storage_size(image));
    opened = opened && fread(m.bus, REU_BUS_SIZE, 1, file) == 1 && fread(m.storage, m.size, 1, file) == 1;
    if (file == NULL || fclose(file) != 0 || !opened) {
        perror(path);
        exit(2);
    }
    memcpy(m.image, image, REU_IMAGE_SIZE);
    m.cycle = cycle;
    return m;
}

static void save_and_open(struct machine *m, const char *path) {
    printf("saved machine: written in the middle of a swap, opened again, both run to the end\n");
    command(m, 0x2000, 0x010000, 5, REU_SWAP | REU_COMMAND_FF00_DISABLE | REU_COMMAND_EXECUTE);
    for (int i = 0; i < 3; i++) {
        expect("cycle", run_cycle(m), 1);
    }
    machine_save(m, path);
    struct machine opened = machine_open(path, m->cycle);
    remove(path);
    expect("equal when opened", (unsigned long)machine_equal(m, &opened), 1);
    expect("cycles of the first", run_to_end(m), 7);
    expect("equal when only one went on", (unsigned long)machine_equal(m, &opened), 0);
    expect("cycles of the opened", run_to_end(&opened), 7);
    expect("equal at the end", (unsigned long)machine_equal(m, &opened), 1);
    /* The count of granted cycles is part of the image: it goes on where the swap was saved, and the end leaves it. */
    uint32_t granted = reu_granted_cycles(opened.image);
    expect("granted cycles", granted, 3 + 7);
    printf("  both ended with the same %d + %d + %lu bytes, the swap was granted %lu cycles in all\n", REU_IMAGE_SIZE,
           REU_BUS_SIZE, (unsigned long)opened.size, (unsigned long)granted);
    machine_free(&opened);
}

/* Until the storage is attached a size may follow another. STATUS marks all but the smallest. */
static void sizes(void) {
    static const uint32_t all[] = {REU_SIZE_512K, REU_SIZE_256K, REU_SIZE_128K};
    uint8_t image[REU_IMAGE_SIZE];
    printf("sizes: 512, 256 and 128 KiB, set one after the other\n");
    accepted("new", reu_new(image, REU_IMAGE_SIZE));
    for (int i = 0; i < 3; i++) {
        accepted("set_size", reu_set_size(image, REU_IMAGE_SIZE, all[i]));
        expect("size", reu_storage_size(image), all[i]);
        uint32_t status = accepted("read", reu_read(image, REU_IMAGE_SIZE, 0xDF00 + REU_STATUS));
        expect("STATUS", status, all[i] == REU_SIZE_128K ? 0 : REU_STATUS_VERSION);
        printf("  %lu bytes: STATUS $%02lX\n", (unsigned long)reu_storage_size(image), (unsigned long)status);
    }
    image[REU_IMAGE_MORE_FLAGS] |= REU_FLAG_SIZE;
    expect("size of a broken image", reu_storage_size(image), 0);
    expect("broken size", reu_refusal(reu_dma_active(image, REU_IMAGE_SIZE)), REU_REFUSED_IMAGE_FIELD);
}

/* A 1700: STATUS has no chip-size mark, and behind the last of its $20000 bytes comes its first one again. */
static void smaller_unit(void) {
    printf("128 KiB: a store of 5 bytes to expansion $F9FFFE, over the end of the storage\n");
    struct machine m = machine_new(REU_SIZE_128K);
    expect("STATUS", register_held(&m, REU_STATUS), 0);
    memcpy(m.bus + 0x1000, "HELLO", 5);
    command(&m, 0x1000, 0xF9FFFE, 5, REU_STORE | REU_COMMAND_FF00_DISABLE | REU_COMMAND_EXECUTE);
    expect("cycles", run_to_end(&m), 5);
    expect("end differs", memcmp(m.storage + 0x1FFFE, "HE", 2) != 0, 0);
    expect("start differs", memcmp(m.storage, "LLO", 3) != 0, 0);
    expect("STATUS at the end", register_held(&m, REU_STATUS), REU_STATUS_END_OF_BLOCK);
    uint32_t refusal = reu_refusal(reu_set_size(m.image, REU_IMAGE_SIZE, REU_SIZE_256K));
    expect("another size", refusal, REU_REFUSED_ATTACHED);
    expect("size", reu_storage_size(m.image), REU_SIZE_128K);
    printf("  storage ends with %.2s and begins with %.3s; another size is refused by %lu now\n",
           (const char *)(m.storage + 0x1FFFE), (const char *)m.storage, (unsigned long)refusal);
    machine_free(&m);
}

/* Refused calls, null pointers with length 0 among them: the right number, and nothing changed. */
static void refusals(struct machine *m) {
    struct machine before = machine_empty(m->size);
    memcpy(before.image, m->image, REU_IMAGE_SIZE);
    memcpy(before.bus, m->bus, REU_BUS_SIZE);
    memcpy(before.storage, m->storage, m->size);
    printf("refusals: no image, a broken image, no bus, no storage or a smaller one, a size of no storage\n");
    expect("new, null", reu_refusal(reu_new(NULL, 0)), REU_REFUSED_IMAGE_LENGTH);
    expect("read, null", reu_refusal(reu_read(NULL, 0, 0xDF00)), REU_REFUSED_IMAGE_LENGTH);
    expect("dma_active, null", reu_refusal(reu_dma_active(NULL, 0)), REU_REFUSED_IMAGE_LENGTH);
    expect("all null", reu_run_reu_cycle(NULL, 0, NULL, 0, NULL, 0, 1, 0, 0, 1), 16777216ul);
    expect("null bus and storage",
           reu_refusal(reu_tick_dma(m->image, REU_IMAGE_SIZE, NULL, 0, NULL, 0, m->cycle, 0)), REU_REFUSED_BUS_LENGTH);
    expect("null storage",
           reu_refusal(reu_bus_action(m->image, REU_IMAGE_SIZE, NULL, 0, 1, 1, m->cycle)), REU_REFUSED_STORAGE_LENGTH);
    expect("smaller storage",
           reu_refusal(reu_bus_action(m->image, REU_IMAGE_SIZE, m->storage, REU_SIZE_128K, 1, 1, m->cycle)),
           REU_REFUSED_STORAGE_LENGTH);
    expect("size 0", reu_refusal(reu_set_size(m->image, REU_IMAGE_SIZE, 0)), REU_REFUSED_SIZE);
    expect("short image", reu_refusal(reu_reset(m->image, REU_IMAGE_SIZE - 1, 0)), REU_REFUSED_IMAGE_LENGTH);
    m->image[REU_IMAGE_DELAY] ^= 3;
    expect("delay 3", reu_refusal(reu_write(m->image, REU_IMAGE_SIZE, 0xDF02, 1)), REU_REFUSED_IMAGE_FIELD);
    m->image[REU_IMAGE_DELAY] ^= 3;
    expect("unchanged", (unsigned long)machine_equal(m, &before), 1);
    machine_free(&before);
}

int main(int argc, char **argv) {
    struct machine m = machine_new(REU_STORAGE_SIZE);
    store(&m);
    swap(&m);
    start_by_ff00(&m);
    over_the_top(&m);
    full_length(&m);
    save_and_open(&m, argc > 1 ? argv[1] : "machine.reu");
    sizes();
    smaller_unit();
    refusals(&m);
    machine_free(&m);
    if (failures != 0) {
        printf("%d results were wrong\n", failures);
        return 1;
    }
    printf("all as expected\n");
    return 0;
}
