// Preloaded into a program, it stands for a disk that loses what a sync couldn't write: the system takes those pages for clean
// then, and a later sync that succeeds doesn't write them. FORGETS_IN is the folder. For each of its files FORGETS_DISK has a
// file with what is on the disk, which this library keeps from one run to the next (`struct disk`); the file in the folder
// holds what the system has in memory.
//   FORGETS_SEED   the seed of all that is drawn
//   FORGETS_PAGE   how many bytes are written back, lost and dropped together
//   FORGETS_FAIL   so many syncs in a thousand fail, and the one whose number, from 1, is in FORGETS_FAIL_AT; each page that
//                  was to be synced is then written or lost
//   FORGETS_SAVE   so many of these pages in a thousand are written
//   FORGETS_OUT    before so many calls in a thousand the system writes some pages of the file by itself
//   FORGETS_DROP   before so many calls in a thousand it drops the pages of the file that were lost, and reads them anew
//   FORGETS_KILL   before so many calls in a thousand it ends the program, and before the one whose number is in
//                  FORGETS_KILL_AT
#include "preload.h"
#include <dirent.h>
#include <limits.h>
#include <stdint.h>
#include <stdio.h>
#include <sys/mman.h>
#include <sys/syscall.h>

#define SIZE 65536

// A file as it is on the disk, and what of it was written since the last sync.
struct disk {
    uint32_t length;
    uint8_t is_entered;        // its name is in the folder on the disk
    uint8_t is_length_written; // its length was changed since
    uint8_t unused[2];
    uint8_t bytes[SIZE];
    uint8_t is_written[SIZE];
};

struct file {
    int number;
    uint32_t length;
    struct disk *disk;
};

static uint64_t drawn;
static uint32_t page;
static long calls, syncs;

__attribute__((constructor)) static void start(void) {
    drawn = (uint64_t)number_in("FORGETS_SEED") * 2 + 1;
    page = (uint32_t)number_in("FORGETS_PAGE");
}

static uint32_t draw(uint32_t below) {
    drawn = drawn * 6364136223846793005ULL + 1442695040888963407ULL;
    return (uint32_t)(drawn >> 33) % below;
}

// Whether an event comes here: by chance, or since this is the one at which it does. `made` counts these.
static int comes(const char *event, const char *at, long *made) {
    return (long)draw(1000) < number_in(event) || (at && ++*made == number_in(at));
}

static ssize_t real_write(int number, const void *bytes, size_t size, off_t from) {
    return REAL(ssize_t (*)(int, const void *, size_t, off_t), "pwrite")(number, bytes, size, from);
}

static int real_cut(int number, off_t length) { return REAL(int (*)(int, off_t), "ftruncate")(number, length); }

// The name of an open file in the folder, "" of the folder itself, and NULL of any other.
static const char *name_of(int number, char *path) {
    char link[64];
    const char *folder = getenv("FORGETS_IN");
    snprintf(link, sizeof link, "/proc/self/fd/%d", number);
    ssize_t length = readlink(link, path, PATH_MAX - 1);
    if (!folder || length < 0) return NULL;
    path[length] = 0;
    size_t above = strlen(folder);
    if (strncmp(path, folder, above) != 0) return NULL;
    return path[above] == 0 ? "" : path[above] == '/' ? path + above + 1 : NULL;
}

// What is on the disk of the file of this name; of a new one nothing.
static struct disk *disk_of(const char *name) {
    char path[2 * PATH_MAX];
    snprintf(path, sizeof path, "%s/%s", getenv("FORGETS_DISK"), name);
    int number = (int)syscall(SYS_openat, AT_FDCWD, path, O_RDWR | O_CREAT, 0600);
    if (number < 0 || real_cut(number, sizeof(struct disk)) != 0) abort();
    void *disk = mmap(NULL, sizeof(struct disk), PROT_READ | PROT_WRITE, MAP_SHARED, number, 0);
    close(number);
    if (disk == MAP_FAILED) abort();
    return disk;
}

static uint32_t length_of(int number) {
    struct stat now;
    if (fstat(number, &now) != 0 || now.st_size > SIZE) abort();
    return (uint32_t)now.st_size;
}

static void read_real(const struct file *file, uint8_t *bytes) {
    memset(bytes, 0, SIZE);
    if (REAL(ssize_t (*)(int, void *, size_t, off_t), "pread")(file->number, bytes, SIZE, 0) < 0) abort();
}

// Writes so many in a thousand of the pages that aren't on the disk. Those that aren't written stay so, or are lost.
static void write_back(const struct file *file, long rate, int loses_rest) {
    uint8_t real[SIZE];
    const uint8_t *is_written = file->disk->is_written;
    const uint8_t *first = memchr(is_written, 1, SIZE), *last = memrchr(is_written, 1, SIZE);
    if (first) read_real(file, real);
    uint32_t at = first ? (uint32_t)(first - is_written) / page * page : SIZE;
    for (; at < SIZE && is_written + at <= last; at += page) {
        if (!memchr(file->disk->is_written + at, 1, page)) continue;
        int writes = (long)draw(1000) < rate;
        if (writes) memcpy(file->disk->bytes + at, real + at, page);
        if (writes || loses_rest) memset(file->disk->is_written + at, 0, page);
    }
    if (!file->disk->is_length_written) return;
    int writes = (long)draw(1000) < rate;
    if (writes) file->disk->length = file->length;
    if (writes || loses_rest) file->disk->is_length_written = 0;
}

// Reads the pages anew that were lost. No time of the file changes by that.
static void drop(struct file *file) {
    uint8_t real[SIZE];
    struct stat before;
    if (fstat(file->number, &before) != 0) abort();
    if (!file->disk->is_length_written && file->disk->length != file->length) {
        if (real_cut(file->number, file->disk->length) != 0) return;
        file->length = file->disk->length;
    }
    read_real(file, real);
    for (uint32_t at = 0; at < file->length; at += page) {
        uint32_t size = file->length - at < page ? file->length - at : page;
        if (memchr(file->disk->is_written + at, 1, size) || memcmp(real + at, file->disk->bytes + at, size) == 0) continue;
        if (real_write(file->number, file->disk->bytes + at, size, at) != (ssize_t)size) return;
    }
    struct timespec times[] = {before.st_atim, before.st_mtim};
    futimens(file->number, times);
}

// Lets what comes before a call come, and says whether the call is on a file of the folder.
static int before(int number, struct file *file) {
    char path[PATH_MAX];
    const char *name = name_of(number, path);
    if (!name || !*name) return 0;
    if (comes("FORGETS_KILL", "FORGETS_KILL_AT", &calls)) kill(getpid(), SIGKILL);
    *file = (struct file){number, length_of(number), disk_of(name)};
    if (comes("FORGETS_OUT", NULL, NULL)) write_back(file, 0, 0);
    if (comes("FORGETS_DROP", NULL, NULL)) drop(file);
    return 1;
}

static void leave(const struct file *file) { munmap(file->disk, sizeof(struct disk)); }

ssize_t pread(int number, void *into, size_t size, off_t from) {
    struct file file;
    if (before(number, &file)) leave(&file);
    return REAL(ssize_t (*)(int, void *, size_t, off_t), "pread")(number, into, size, from);
}

ssize_t pread64(int, void *, size_t, off64_t) __attribute__((alias("pread")));

ssize_t pwrite(int number, const void *bytes, size_t size, off_t from) {
    struct file file;
    int is_in = before(number, &file);
    ssize_t written = real_write(number, bytes, size, from);
    if (!is_in) return written;
    if (written > 0) {
        uint32_t end = (uint32_t)(from + written), first = (uint32_t)from / page * page;
        memset(file.disk->is_written + first, 1, (end - first + page - 1) / page * page);
        if (end >= file.length) file.disk->is_length_written = 1;
    }
    leave(&file);
    return written;
}

ssize_t pwrite64(int, const void *, size_t, off64_t) __attribute__((alias("pwrite")));

int ftruncate(int number, off_t length) {
    struct file file;
    int is_in = before(number, &file), answer = real_cut(number, length);
    if (is_in) {
        if (answer == 0) file.disk->is_length_written = 1;
        leave(&file);
    }
    return answer;
}

int ftruncate64(int, off64_t) __attribute__((alias("ftruncate")));

// Puts the names of the folder's files on the disk.
static void enter(void) {
    DIR *folder = opendir(getenv("FORGETS_IN"));
    struct dirent *entry;
    if (!folder) abort();
    while ((entry = readdir(folder))) {
        if (entry->d_name[0] == '.') continue;
        struct disk *disk = disk_of(entry->d_name);
        disk->is_entered = 1;
        munmap(disk, sizeof(struct disk));
    }
    closedir(folder);
}

static int synced(const char *call, int number) {
    char path[PATH_MAX];
    struct file file;
    const char *name = name_of(number, path);
    if (!name) return REAL(int (*)(int), call)(number);
    int is_file = before(number, &file), fails = comes("FORGETS_FAIL", "FORGETS_FAIL_AT", &syncs);
    if (is_file) {
        write_back(&file, fails ? number_in("FORGETS_SAVE") : 1000, fails);
        leave(&file);
    } else if (!fails) enter();
    if (fails) errno = EIO;
    return fails ? -1 : 0;
}

int fsync(int number) { return synced("fsync", number); }

int fdatasync(int number) { return synced("fdatasync", number); }
