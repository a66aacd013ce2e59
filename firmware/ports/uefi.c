/*
 * A UEFI application for x86-64, over the first SDHCI controller behind PCI. clang makes it for x86_64-unknown-windows, whose calls are
 * those of UEFI, and lld-link puts it together; it needs no header of UEFI.
 *
 * What the board owes, and who sees to it:
 * - Clock, power, pins and address: UEFI has set up PCI, and the capabilities tell the base clock.
 * - No other driver: the port disconnects the one of UEFI from the controller.
 * - Time: the processor's time-stamp counter, measured beside a stall of 10 ms.
 * - Registers take accesses of 8, 16 and 32 bits, by EFI_PCI_IO_PROTOCOL.
 * - Card detect reaches the controller.
 */
#include "port.h"

extern const uint32_t table[];
extern const size_t table_words;

typedef uint64_t efi_status; /* 0: success; an error has bit 63 */
typedef void *efi_handle;

struct efi_guid {
    uint32_t first;
    uint16_t second, third;
    uint8_t rest[8];
};

/* The services that are not called have no type. */
typedef void (*efi_unused)(void);

struct efi_text_output {
    efi_unused reset;
    efi_status (*output)(struct efi_text_output *self, const uint16_t *text);
};

struct efi_boot_services {
    uint8_t header[24];
    efi_unused to_install[16]; /* from RaiseTPL to UninstallProtocolInterface */
    efi_status (*handle_protocol)(efi_handle handle, const struct efi_guid *protocol, void **found);
    efi_unused reserved[2];
    efi_status (*locate_handle)(uint32_t by, const struct efi_guid *protocol, void *key, size_t *bytes, efi_handle *handles);
    efi_unused to_count[8]; /* from LocateDevicePath to GetNextMonotonicCount */
    efi_status (*stall)(uint64_t microseconds);
    efi_unused to_connect[2]; /* SetWatchdogTimer, ConnectController */
    efi_status (*disconnect)(efi_handle controller, efi_handle driver, efi_handle child);
};

struct efi_runtime_services {
    uint8_t header[24];
    efi_unused to_count[10]; /* from GetTime to GetNextHighMonotonicCount */
    efi_status (*reset)(uint32_t kind, efi_status why, size_t bytes, void *text);
};

struct efi_system_table {
    uint8_t header[24];
    void *vendor;
    uint64_t revision;
    void *in_handle, *in, *out_handle;
    struct efi_text_output *out;
    void *error_handle, *error;
    struct efi_runtime_services *runtime;
    struct efi_boot_services *boot;
};

struct efi_pci_io {
    efi_unused poll[2];
    efi_status (*read)(struct efi_pci_io *self, uint32_t width, uint8_t bar, uint64_t offset, size_t count, void *to);
    efi_status (*write)(struct efi_pci_io *self, uint32_t width, uint8_t bar, uint64_t offset, size_t count, void *from);
    efi_unused ports[2];
    efi_status (*configuration)(struct efi_pci_io *self, uint32_t width, uint32_t offset, size_t count, void *to);
    efi_unused to_location[8]; /* from Pci.Write to GetLocation */
    efi_status (*attributes)(struct efi_pci_io *self, uint32_t operation, uint64_t attributes, uint64_t *result);
};

enum { BY_PROTOCOL = 2, WORDS = 2, ENABLE = 2, MEMORY = 0x200, SHUTDOWN = 2, CLASS = 0x08, SDHCI_CLASS = 0x0805, HANDLES = 64 };

static const struct efi_guid PCI_IO = {0x4CF5B200, 0x68B8, 0x4CA5, {0x9E, 0xEC, 0xB2, 0x3E, 0x3F, 0x50, 0x02, 0x9A}};

static struct efi_system_table *uefi;
static uint64_t counts_per_millisecond;

static uint32_t read_register(void *board, uint32_t offset)
{
    struct efi_pci_io *pci = board;
    uint32_t word = 0;

    pci->read(pci, WORDS, 0, offset, 1, &word);
    return word;
}

static void write_register(void *board, uint32_t offset, uint32_t value)
{
    struct efi_pci_io *pci = board;

    pci->write(pci, WORDS, 0, offset, 1, &value);
}

static uint32_t milliseconds(void *board)
{
    (void)board;
    return (uint32_t)(__builtin_ia32_rdtsc() / counts_per_millisecond);
}

static void measure_time(void)
{
    uint64_t since = __builtin_ia32_rdtsc();

    uefi->boot->stall(10000);
    counts_per_millisecond = (__builtin_ia32_rdtsc() - since) / 10 + 1;
}

/* The controller of a handle, if it is one of SDHCI, without the driver that UEFI has for it. */
static struct efi_pci_io *controller_of(efi_handle handle)
{
    void *found;
    struct efi_pci_io *pci;
    uint32_t class = 0;

    if (uefi->boot->handle_protocol(handle, &PCI_IO, &found) != 0)
        return NULL;
    pci = found;
    if (pci->configuration(pci, WORDS, CLASS, 1, &class) != 0 || class >> 16 != SDHCI_CLASS)
        return NULL;
    uefi->boot->disconnect(handle, NULL, NULL); /* there may be no driver */
    return pci->attributes(pci, ENABLE, MEMORY, NULL) == 0 ? pci : NULL;
}

bool port_open(struct sdhci_port *port)
{
    efi_handle handles[HANDLES];
    size_t bytes = sizeof handles, i;
    struct efi_pci_io *pci = NULL;

    if (uefi->boot->locate_handle(BY_PROTOCOL, &PCI_IO, NULL, &bytes, handles) != 0)
        return false;
    for (i = 0; pci == NULL && i < bytes / sizeof *handles; i++)
        pci = controller_of(handles[i]);
    measure_time();
    *port = (struct sdhci_port){.read = read_register, .write = write_register, .milliseconds = milliseconds, .board = pci};
    return pci != NULL;
}

void port_put(char byte)
{
    uint16_t text[3] = {(uint8_t)byte, 0, 0};

    if (byte == '\n')
        text[0] = '\r', text[1] = '\n';
    uefi->out->output(uefi->out, text);
}

efi_status efi_main(efi_handle image, struct efi_system_table *system);

efi_status efi_main(efi_handle image, struct efi_system_table *system)
{
    (void)image;
    uefi = system;
    (void)play(table, table_words);
    return uefi->runtime->reset(SHUTDOWN, 0, 0, NULL);
}
