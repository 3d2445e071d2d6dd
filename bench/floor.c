// The least that a crash-safe deployment by hard links costs here: its system calls and its texts,
// with nothing decided, checked or read back.
//
// usage: floor deploy|purge WORLD WINNERS
//
// WORLD has `stage`, `game` and `keep`. WINNERS has a line for each file: its staged place, a tab,
// and its place in the game, in path order. `deploy` hashes each file, writes an intent, makes
// folders, keeps files of the game under backup names, links, syncs each folder once in each pass,
// and writes the manifest; `purge` takes all that back. Prints rows, folders, saves and calls.
//
// cc -O2 -o floor floor.c -lcrypto

#define _GNU_SOURCE
#include <errno.h>
#include <fcntl.h>
#include <openssl/evp.h>
#include <stdarg.h>
#include <stdint.h>
#include <stdio.h>
#include <stdlib.h>
#include <string.h>
#include <sys/stat.h>
#include <unistd.h>

typedef struct {
    char *from, *to;
    long folder;
    unsigned char digest[32];
    char saved;
} Row;

static Row *rows;
static long row_count;
static char **folders; // each above a row, those above first
static long *parents;
static char *made, *touched;
static long folder_count;
static char *text;
static size_t text_len, text_room;
static long calls;

static void fail(const char *what, const char *path) {
    fprintf(stderr, "%s %s: %s\n", what, path, strerror(errno));
    exit(1);
}

// System calls, counted.

static int look(const char *path, struct stat *found) {
    calls++;
    return lstat(path, found);
}

static int is_file(const char *path) {
    struct stat found;
    return !look(path, &found) && S_ISREG(found.st_mode);
}

static void link_at(const char *from, const char *to) {
    calls++;
    if (link(from, to)) fail("link", to);
}

static void unlink_at(const char *path) {
    calls++;
    if (unlink(path)) fail("unlink", path);
}

static void sync_folder(const char *path) {
    calls += 3;
    int file = open(path, O_RDONLY | O_DIRECTORY | O_CLOEXEC);
    if (file < 0 || fsync(file)) fail("sync", path);
    close(file);
}

static void sync_touched(void) {
    for (long at = 0; at < folder_count; at++)
        if (touched[at]) sync_folder(folders[at]);
    memset(touched, 0, folder_count + 1);
}

static void put(const char *temp, const char *place) {
    calls += 5;
    int file = open(temp, O_WRONLY | O_CREAT | O_EXCL | O_CLOEXEC, 0644);
    if (file < 0) fail("create", temp);
    for (size_t done = 0; done < text_len;) {
        ssize_t part = write(file, text + done, text_len - done);
        if (part < 0) fail("write", temp);
        done += part;
    }
    if (fsync(file)) fail("sync", temp);
    close(file);
    if (rename(temp, place)) fail("rename", place);
    sync_folder("keep");
}

static void hash(Row *row) {
    static EVP_MD_CTX *context;
    static EVP_MD *kind;
    static unsigned char part[65536];
    if (!context) {
        context = EVP_MD_CTX_new();
        kind = EVP_MD_fetch(NULL, "SHA256", NULL);
    }
    EVP_DigestInit_ex(context, kind, NULL);
    calls += 3;
    int file = open(row->from, O_RDONLY | O_CLOEXEC);
    if (file < 0) fail("open", row->from);
    for (;;) {
        ssize_t count = read(file, part, sizeof part);
        calls++;
        if (count < 0) fail("read", row->from);
        if (count == 0) break;
        EVP_DigestUpdate(context, part, count);
    }
    calls--; // the last read is in the three
    close(file);
    EVP_DigestFinal_ex(context, row->digest, NULL);
}

// Texts.

static void add(const char *format, ...) {
    for (;;) {
        va_list list;
        va_start(list, format);
        size_t need = vsnprintf(text + text_len, text_room - text_len, format, list);
        va_end(list);
        if (text_len + need < text_room) {
            text_len += need;
            return;
        }
        text_room = 2 * (text_room + need + 1024);
        text = realloc(text, text_room);
    }
}

static void add_manifest(void) {
    add("{\"files\":[");
    for (long at = 0; at < row_count; at++) {
        Row *row = rows + at;
        char digits[65], *id = row->from + 6, *end = strchr(id, '/');
        for (int k = 0; k < 32; k++) sprintf(digits + 2 * k, "%02x", row->digest[k]);
        add("%s{\"digest\":\"%s\",\"mod\":\"%.*s\",\"path\":\"%s\",", at ? "," : "", digits,
            (int)(end - id), id, row->to + 5);
        add("\"shadowed\":%s,\"source\":\"%s\"}", row->saved ? "true" : "false", end + 1);
    }
    add("],\"folders\":[");
    const char *comma = "";
    for (long at = 0; at < folder_count; at++)
        if (made[at]) add("%s\"%s\"", comma, folders[at] + 5), comma = ",";
    add("],\"version\":2}");
}

static void put_intent(int is_set, int is_purge) {
    text_len = 0;
    add("{\"clears\":[],\"folders\":[],\"folders_off\":[],\"manifest\":");
    if (is_purge) add("null");
    else add_manifest();
    add(",\"phase\":\"%s\",\"saves\":[],\"sets\":[", is_set ? "set" : "clear");
    for (long at = 0; is_set && at < row_count; at++)
        add("%s{\"back\":null,\"from\":\"%s\",\"to\":\"%s\"}", at ? "," : "",
            is_purge ? "" : rows[at].from, rows[at].to);
    add("],\"version\":2}");
    put("keep/intent.tmp", "keep/intent.json");
}

static const char *backup_of(const Row *row) {
    static char path[8192];
    snprintf(path, sizeof path, "%s.vortex_backup", row->to);
    return path;
}

// The world.

// The row's folders that the one before it isn't in become known; gives its own.
static long folder_of(const char *path, long *stack, int *depth) {
    static long room;
    int level = 0;
    for (const char *slash = strchr(path, '/'); slash; slash = strchr(slash + 1, '/'), level++) {
        size_t length = slash - path;
        if (level < *depth && strlen(folders[stack[level]]) == length &&
            !memcmp(folders[stack[level]], path, length))
            continue;
        if (folder_count == room) {
            room = room ? 2 * room : 1024;
            folders = realloc(folders, room * sizeof *folders);
            parents = realloc(parents, room * sizeof *parents);
        }
        folders[folder_count] = strndup(path, length);
        parents[folder_count] = level ? stack[level - 1] : 0;
        stack[level] = folder_count++;
        *depth = level + 1;
    }
    *depth = level;
    return stack[level - 1];
}

static void read_rows(const char *path) {
    FILE *file = fopen(path, "r");
    if (!file) fail("open", path);
    char *line = NULL;
    size_t room = 0;
    long row_room = 0, stack[128];
    int depth = 0;
    while (getline(&line, &room, file) > 0) {
        line[strcspn(line, "\n")] = 0;
        char *tab = strchr(line, '\t');
        *tab = 0;
        if (row_count == row_room) {
            row_room = row_room ? 2 * row_room : 4096;
            rows = realloc(rows, row_room * sizeof *rows);
        }
        Row *row = rows + row_count++;
        memset(row, 0, sizeof *row);
        row->from = strdup(line);
        row->to = strdup(tab + 1);
        row->folder = folder_of(row->to, stack, &depth);
    }
    fclose(file);
    made = calloc(folder_count + 1, 1);
    touched = calloc(folder_count + 1, 1);
}

static long deploy(void) {
    struct stat found;
    long saves = 0;
    for (long at = 0; at < row_count; at++) hash(rows + at);
    for (long at = 0; at < folder_count; at++) made[at] = look(folders[at], &found) != 0;
    for (long at = 0; at < row_count; at++)
        if (!made[rows[at].folder]) saves += rows[at].saved = is_file(rows[at].to);
    put_intent(1, 0);
    for (long at = 0; at < folder_count; at++) {
        if (!made[at]) continue;
        calls++;
        if (mkdir(folders[at], 0755)) fail("mkdir", folders[at]);
        touched[parents[at]] = 1;
    }
    sync_touched();
    for (long at = 0; at < row_count; at++)
        if (rows[at].saved) {
            is_file(backup_of(rows + at));
            link_at(rows[at].to, backup_of(rows + at));
            touched[rows[at].folder] = 1;
        }
    sync_touched();
    for (long at = 0; at < row_count; at++) {
        Row *row = rows + at;
        is_file(row->from);
        look(row->to, &found);
        look(folders[row->folder], &found);
        if (row->saved) unlink_at(row->to);
        link_at(row->from, row->to);
        touched[row->folder] = 1;
    }
    sync_touched();
    put_intent(0, 0);
    text_len = 0;
    add_manifest();
    put("keep/manifest.tmp", "game/vortex.deployment.json");
    sync_folder("game");
    return saves;
}

static long purge(void) {
    struct stat game, stage;
    long saves = 0;
    for (long at = 0; at < row_count; at++) {
        Row *row = rows + at;
        if (look(row->to, &game) || look(row->from, &stage) || game.st_ino != stage.st_ino)
            fail("changed", row->to);
        saves += row->saved = is_file(backup_of(row));
    }
    put_intent(1, 1);
    for (long at = 0; at < row_count; at++) {
        Row *row = rows + at;
        is_file(row->to);
        look(folders[row->folder], &game);
        unlink_at(row->to);
        if (row->saved) link_at(backup_of(row), row->to);
        touched[row->folder] = 1;
    }
    sync_touched();
    put_intent(0, 1);
    unlink_at("game/vortex.deployment.json");
    sync_folder("game");
    sync_folder("keep");
    for (long at = 0; at < row_count; at++)
        if (rows[at].saved) {
            unlink_at(backup_of(rows + at));
            touched[rows[at].folder] = 1;
        }
    sync_touched();
    for (long at = folder_count - 1; at > 0; at--) {
        calls++;
        if (rmdir(folders[at]) && errno != ENOTEMPTY) fail("rmdir", folders[at]);
    }
    sync_folder("game");
    return saves;
}

int main(int count, char **words) {
    if (count != 4) {
        fprintf(stderr, "usage: floor deploy|purge WORLD WINNERS\n");
        return 2;
    }
    read_rows(words[3]);
    if (chdir(words[2])) fail("chdir", words[2]);
    long saves = strcmp(words[1], "purge") ? deploy() : purge();
    unlink_at("keep/intent.json");
    sync_folder("keep");
    printf("rows %ld, folders %ld, saves %ld, calls %ld\n", row_count, folder_count, saves, calls);
}
