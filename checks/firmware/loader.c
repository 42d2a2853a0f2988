// The loader: follows \plan, or \shimplan if shim began it, line by line, and says what comes of
// each.
//
//     set NAME SPACE ATTRIBUTES FILE    SetVariable with the file's bytes; SPACE: see space_of
//     get NAME SPACE                    the variable's bytes
//     load NAME FILE                    LoadImage, and no start
//     try NAME FILE                     LoadImage and, if it is loaded, StartImage
//     verify NAME FILE                  Verify of shim's protocol
//
// It says `WORD NAME STATUS`, status and bytes in hexadecimal, and in the end switches the machine
// off. No relocations, so no global data.
#include "debugcon.h"

typedef struct {
    EFI_STATUS (*verify)(VOID *bytes, UINT32 length);
    VOID *hash, *context;
} SHIM_LOCK;

typedef struct {
    EFI_SYSTEM_TABLE *table;
    EFI_BOOT_SERVICES *boot;
    EFI_HANDLE me, device;
    EFI_FILE *root;
    SHIM_LOCK *shim;
} PLACE;

static void say_bytes(const UINT8 *bytes, UINTN length) {
    for (UINTN i = 0; i < 2 * length; i++) {
        UINT8 digit = bytes[i / 2] >> (i % 2 ? 0 : 4) & 15;
        put(digit < 10 ? '0' + digit : 'a' + digit - 10);
    }
}

static void say_status(const char *word, const char *name, EFI_STATUS status) {
    UINT8 bytes[8];
    for (int i = 0; i < 8; i++) bytes[i] = status >> (56 - 8 * i);
    say(word);
    say(" ");
    say(name);
    say(" ");
    say_bytes(bytes, 8);
}

static int same(const char *a, const char *b) {
    while (*a && *a == *b) a++, b++;
    return *a == *b;
}

// A path or a name of at most 255 bytes, in the firmware's characters.
static UINTN wide(const char *text, CHAR16 *to) {
    UINTN length = 0;
    for (; text[length] && length < 255; length++) {
        to[length] = text[length] == '/' ? '\\' : text[length];
    }
    to[length] = 0;
    return length;
}

static UINT32 number(const char *digits) {
    UINT32 value = 0;
    for (; *digits; digits++) {
        value = value * 16 + (*digits <= '9' ? *digits - '0' : *digits - 'a' + 10);
    }
    return value;
}

static void *memory(PLACE *at, UINTN length) {
    void *found = 0;
    return at->boot->AllocatePool(EfiLoaderData, length, &found) ? 0 : found;
}

// A file's bytes with a zero byte behind them, or 0.
static UINT8 *read(PLACE *at, const char *path, UINTN *length) {
    CHAR16 name[256];
    EFI_FILE *file;
    UINT64 end = 0;
    *length = 0;
    wide(path, name);
    if (at->root->Open(at->root, &file, name, EFI_FILE_MODE_READ, 0)) return 0;
    file->SetPosition(file, ~0ULL);
    file->GetPosition(file, &end);
    file->SetPosition(file, 0);
    UINT8 *bytes = memory(at, end + 1);
    UINTN got = end;
    if (bytes && !file->Read(file, &got, bytes) && got == end) {
        bytes[end] = 0;
        *length = end;
    } else {
        bytes = 0;
    }
    file->Close(file);
    return bytes;
}

// The volume's device path with the file behind it, as a boot manager makes it.
static EFI_DEVICE_PATH *device_path(PLACE *at, const char *path) {
    EFI_GUID kind = DEVICE_PATH_PROTOCOL;
    CHAR16 name[256];
    UINT8 *device;
    if (at->boot->HandleProtocol(at->device, &kind, (void **)&device)) return 0;
    UINTN before = 0, size = 4 + 2 * (wide(path, name) + 1);
    while (device[before] != 0x7f) before += device[before + 2] + 256 * device[before + 3];
    UINT8 *whole = memory(at, before + size + 4);
    if (!whole) return 0;
    for (UINTN i = 0; i < before; i++) whole[i] = device[i];
    UINT8 node[4] = { 4, 4, size & 255, size >> 8 }, end[4] = { 0x7f, 0xff, 4, 0 };
    for (UINTN i = 0; i < 4; i++) whole[before + i] = node[i], whole[before + size + i] = end[i];
    for (UINTN i = 0; i < size - 4; i++) whole[before + 4 + i] = ((UINT8 *)name)[i];
    return (EFI_DEVICE_PATH *)whole;
}

// The space of a variable's name: d for db and dbx, s for shim's, g for the firmware's own.
static EFI_GUID space_of(char letter) {
    EFI_GUID databases = {
        0xd719b2cb, 0x3d3a, 0x4596, { 0xa3, 0xbc, 0xda, 0xd0, 0x0e, 0x67, 0x65, 0x6f }
    };
    EFI_GUID shims = {
        0x605dab50, 0xe046, 0x4300, { 0xab, 0xb6, 0x3d, 0xd8, 0x10, 0xdd, 0x8b, 0x23 }
    };
    EFI_GUID global = {
        0x8be4df61, 0x93ca, 0x11d2, { 0xaa, 0x0d, 0x00, 0xe0, 0x98, 0x03, 0x2b, 0x8c }
    };
    return letter == 'd' ? databases : letter == 's' ? shims : global;
}

static void set(PLACE *at, const char *name, char space, const char *attributes, const char *path) {
    CHAR16 wanted[256];
    EFI_GUID kind = space_of(space);
    UINTN length;
    UINT8 *bytes = read(at, path, &length);
    wide(name, wanted);
    EFI_STATUS status = EFI_NOT_FOUND;
    EFI_RUNTIME_SERVICES *run = at->table->RuntimeServices;
    if (bytes) status = run->SetVariable(wanted, &kind, number(attributes), length, bytes);
    say_status("set", name, status);
    say(" ");
    say(path);
    say("\n");
    if (bytes) at->boot->FreePool(bytes);
}

static void get(PLACE *at, const char *name, char space) {
    CHAR16 wanted[256];
    EFI_GUID kind = space_of(space);
    UINTN length = 0;
    UINT32 attributes = 0;
    UINT8 *bytes = 0;
    wide(name, wanted);
    EFI_RUNTIME_SERVICES *run = at->table->RuntimeServices;
    EFI_STATUS status = run->GetVariable(wanted, &kind, &attributes, &length, 0);
    if (length) bytes = memory(at, length);
    if (bytes) status = run->GetVariable(wanted, &kind, &attributes, &length, bytes);
    say_status("get", name, status);
    say(" ");
    if (bytes && !status) say_bytes(bytes, length);
    say("\n");
    if (bytes) at->boot->FreePool(bytes);
}

static void load(PLACE *at, const char *name, const char *path, int start) {
    EFI_HANDLE image = 0;
    EFI_DEVICE_PATH *where = device_path(at, path);
    EFI_STATUS status = at->boot->LoadImage(FALSE, at->me, where, 0, 0, &image);
    say_status("load", name, status);
    say("\n");
    if (!status && start) {
        say_status("start", name, at->boot->StartImage(image, 0, 0));
        say("\n");
    } else if (image) {
        at->boot->UnloadImage(image);
    }
    if (where) at->boot->FreePool(where);
}

static void verify(PLACE *at, const char *name, const char *path) {
    UINTN length;
    UINT8 *bytes = read(at, path, &length);
    EFI_STATUS status = EFI_NOT_FOUND;
    if (bytes && at->shim) status = at->shim->verify(bytes, length);
    say_status("verify", name, status);
    say("\n");
    if (bytes) at->boot->FreePool(bytes);
}

static void follow(PLACE *at, char **words, int count) {
    if (same(words[0], "set") && count == 5) set(at, words[1], words[2][0], words[3], words[4]);
    else if (same(words[0], "get") && count == 3) get(at, words[1], words[2][0]);
    else if (same(words[0], "load") && count == 3) load(at, words[1], words[2], 0);
    else if (same(words[0], "try") && count == 3) load(at, words[1], words[2], 1);
    else if (same(words[0], "verify") && count == 3) verify(at, words[1], words[2]);
    else say("no such step\n");
}

static void follow_all(PLACE *at, char *next, char *end) {
    while (next < end) {
        char *words[6];
        int count = 0;
        while (next < end && *next != '\n') {
            while (*next == ' ') *next++ = 0;
            if (count < 6) words[count++] = next;
            while (next < end && *next != ' ' && *next != '\n') next++;
        }
        if (next < end) *next++ = 0;
        if (count) follow(at, words, count);
    }
}

// Where the loader was loaded from, and shim's protocol if it is there.
static int open(PLACE *at, EFI_HANDLE me, EFI_SYSTEM_TABLE *table) {
    EFI_GUID loaded = LOADED_IMAGE_PROTOCOL, volume = SIMPLE_FILE_SYSTEM_PROTOCOL;
    EFI_GUID lock = space_of('s');
    EFI_LOADED_IMAGE *self;
    EFI_FILE_IO_INTERFACE *files;
    at->table = table;
    at->boot = table->BootServices;
    at->me = me;
    at->boot->SetWatchdogTimer(0, 0, 0, 0);
    if (at->boot->HandleProtocol(me, &loaded, (void **)&self)) return 0;
    at->device = self->DeviceHandle;
    if (at->boot->HandleProtocol(at->device, &volume, (void **)&files)) return 0;
    if (files->OpenVolume(files, &at->root)) return 0;
    if (at->boot->LocateProtocol(&lock, 0, (void **)&at->shim)) at->shim = 0;
    return 1;
}

ENTRY EFI_STATUS EFIAPI entry(EFI_HANDLE me, EFI_SYSTEM_TABLE *table) {
    PLACE place, *at = &place;
    UINTN length;
    char *plan = 0;
    if (open(at, me, table)) plan = (char *)read(at, at->shim ? "/shimplan" : "/plan", &length);
    if (plan) follow_all(at, plan, plan + length);
    say(plan ? "end\n" : "no plan\n");
    table->RuntimeServices->ResetSystem(EfiResetShutdown, 0, 0, 0);
    return 0;
}
