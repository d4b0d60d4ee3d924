/* The system calls of commands, and nothing else of a store: bare DIR GROUP SCRIPT
   Reads command lines from standard input as the program does, and answers each as accepted. Each time a group is full,
   and at the end of the input, it makes the calls of one commit, with the next record of SCRIPT: its length in 8 bytes,
   and what the journal has from byte 1 on. */
#define _GNU_SOURCE
#include <fcntl.h>
#include <stdint.h>
#include <stdio.h>
#include <stdlib.h>
#include <string.h>
#include <sys/stat.h>
#include <unistd.h>

enum { PIECE = 4096, NAME = 256, FILES = 512, HEADER = 15, BACK = 16384 };

struct file {
    char name[NAME];
    int fd;
};

static const char *folder;
static int folder_fd;
static int is_folder_seen; /* no write, cut, sync or read came since it was looked at */
static int journal;
static struct file files[FILES];
static size_t file_count;
static const unsigned char *script;
static const unsigned char *script_end;
static uint64_t accepted, acknowledged;

static void fail(const char *call)
{
    perror(call);
    exit(1);
}

static void put_at(int fd, const void *bytes, size_t count, off_t from)
{
    is_folder_seen = 0;
    if (pwrite(fd, bytes, count, from) != (ssize_t)count)
        fail("pwrite");
}

static void sync_data(int fd)
{
    is_folder_seen = 0;
    if (fdatasync(fd) != 0)
        fail("fdatasync");
}

static uint64_t length_of(int fd)
{
    struct statx now;
    if (statx(fd, "", AT_EMPTY_PATH, STATX_BASIC_STATS, &now) != 0)
        fail("statx");
    return now.stx_size;
}

static void set_gate(unsigned char gate)
{
    put_at(journal, &gate, 1, 0);
    sync_data(journal);
}

static void path_of(char path[PIECE], const char *name)
{
    snprintf(path, PIECE, "%s/%s", folder, name);
}

static int open_in(const char *of)
{
    char path[PIECE];
    path_of(path, of);
    int fd = open(path, O_RDWR | O_CREAT | O_CLOEXEC, 0666);
    if (fd < 0)
        fail(path);
    return fd;
}

static struct file *opened(const unsigned char *name, size_t count)
{
    for (size_t i = 0; i < file_count; i++)
        if (strlen(files[i].name) == count && memcmp(files[i].name, name, count) == 0)
            return &files[i];
    if (file_count == FILES || count >= NAME)
        exit(1);
    struct file *one = &files[file_count++];
    memcpy(one->name, name, count);
    one->fd = open_in(one->name);
    return one;
}

static uint64_t number(const unsigned char **at, int bytes)
{
    uint64_t value = 0;
    while (bytes-- > 0)
        value = value << 8 | *(*at)++;
    return value;
}

/* Looks at the folder, which has changed no entry. Looks in a row share one. */
static void look_at_folder(void)
{
    if (!is_folder_seen)
        length_of(folder_fd);
    is_folder_seen = 1;
}

/* Looks at a file, and before that at the folder. */
static uint64_t look_at(const struct file *one)
{
    look_at_folder();
    return length_of(one->fd);
}

/* Reads a file back. */
static void read_back(const struct file *one)
{
    static char back[BACK];
    uint64_t length = look_at(one);
    is_folder_seen = 0;
    for (uint64_t from = 0; from < length; from += BACK) {
        size_t size = length - from < BACK ? (size_t)(length - from) : BACK;
        if (pread(one->fd, back, size, (off_t)from) != (ssize_t)size)
            fail("pread");
    }
}

/* Passes over what an entry says of its file as it was before: its length, which is the answer, and the bytes beside the
   patches. */
static uint64_t pass_before(const unsigned char **at)
{
    uint64_t length = number(at, 8);
    for (int beside = 0; beside < 2; beside++) {
        uint64_t count = number(at, 1);
        *at += count;
    }
    return length;
}

/* Does this with each file of a record. */
static void each_file(const unsigned char *at, void (*with)(const struct file *))
{
    for (uint64_t entries = number(&at, 4); entries > 0; entries--) {
        size_t named = number(&at, 2);
        struct file *one = opened(at, named);
        with(one);
        at += named + 8;
        pass_before(&at);
        for (uint64_t patches = number(&at, 4); patches > 0; patches--) {
            number(&at, 8);
            uint64_t count = number(&at, 8);
            at += count;
        }
    }
}

static void try_file(const struct file *one)
{
    look_at(one);
}

/* Cuts a file that is longer. */
static void cut_to(const struct file *one, uint64_t final)
{
    if (look_at(one) <= final)
        return;
    is_folder_seen = 0;
    if (ftruncate(one->fd, (off_t)final) != 0)
        fail("ftruncate");
    look_at(one);
}

/* Lays the patches of a record, and syncs its files. Of several files each is looked at before it is written, and once more
   just after. */
static void lay(const unsigned char *at)
{
    int changed[FILES];
    uint64_t entries = number(&at, 4);
    for (uint64_t entry = 0; entry < entries; entry++) {
        size_t named = number(&at, 2);
        struct file *one = opened(at, named);
        int fd = changed[entry] = one->fd;
        at += named;
        uint64_t final = number(&at, 8);
        uint64_t before = pass_before(&at);
        if (entries > 1)
            look_at(one);
        for (uint64_t patches = number(&at, 4); patches > 0; patches--) {
            uint64_t from = number(&at, 8), count = number(&at, 8);
            if (count > 0)
                put_at(fd, at, count, (off_t)from);
            at += count;
        }
        if (before > final)
            cut_to(one, final);
        else if (entries > 1)
            look_at(one);
    }
    for (uint64_t entry = 0; entry < entries; entry++)
        sync_data(changed[entry]);
}

static void commit(void)
{
    if (script == script_end) {
        fputs("bare: the script is over\n", stderr);
        exit(1);
    }
    size_t body = number(&script, 8);
    look_at_folder();
    each_file(script + HEADER, try_file);
    put_at(journal, script, body, 1);
    sync_data(journal);
    set_gate(1);
    each_file(script + HEADER, try_file);
    lay(script + HEADER);
    each_file(script + HEADER, read_back);
    set_gate(0);
    each_file(script + HEADER, try_file);
    script += body;
    acknowledged = accepted;
}

static void reply(uint64_t done, int safe)
{
    char text[64];
    int count = 0;
    if (done > 0)
        count += snprintf(text, sizeof text, "ok %llu\n", (unsigned long long)done);
    if (safe)
        count += snprintf(text + count, sizeof text - (size_t)count, "safe %llu\n", (unsigned long long)acknowledged);
    if (write(1, text, (size_t)count) != count)
        fail("write");
}

static void command(uint64_t group)
{
    accepted++;
    if (accepted - acknowledged == group)
        commit();
    reply(accepted, acknowledged == accepted);
}

/* The whole script, in memory before the first line is read. */
static void load(const char *path)
{
    int fd = open(path, O_RDONLY | O_CLOEXEC);
    if (fd < 0)
        fail(path);
    size_t size = (size_t)length_of(fd), got = 0;
    unsigned char *bytes = malloc(size + 1);
    while (bytes != NULL && got < size) {
        ssize_t more = read(fd, bytes + got, size - got);
        if (more <= 0)
            fail("read");
        got += (size_t)more;
    }
    if (bytes == NULL)
        fail("malloc");
    script = bytes;
    script_end = bytes + size;
    close(fd);
}

int main(int count, char **words)
{
    static char piece[PIECE];
    if (count < 4) {
        fputs("usage: bare DIR GROUP SCRIPT\n", stderr);
        return 2;
    }
    folder = words[1];
    folder_fd = open(folder, O_RDONLY | O_CLOEXEC);
    if (folder_fd < 0)
        fail(folder);
    uint64_t group = strtoull(words[2], NULL, 10);
    load(words[3]);
    journal = open_in("orgstore.journal");
    set_gate(0);
    for (;;) {
        ssize_t got = read(0, piece, PIECE);
        if (got < 0)
            fail("read");
        if (got == 0)
            break;
        for (ssize_t at = 0; at < got; at++)
            if (piece[at] == '\n')
                command(group);
    }
    if (acknowledged < accepted) {
        commit();
        reply(0, 1);
    }
    return 0;
}
