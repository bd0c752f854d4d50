/* unchanged LIST PATH: ends with status 0 if all that a program was made from is in the state that LIST says, and PATH is among it.
 *
 * LIST is the file that tools/build writes beside a program: three lines, and then lines of a sum, a state and a path. A state is the size, the times of
 * change (mtime and ctime) and the inode, or `-` if there is nothing. Thousands of states are read in some milliseconds, which `find` and `stat` do not
 * reach. It needs no header, so that the kit's compiler makes it. */
typedef struct file file;

struct moment {
    long seconds;
    unsigned nanoseconds;
    int unused;
};

/* What the system tells of a file: `struct statx` of Linux. */
struct facts {
    unsigned known, block_size;
    unsigned long attributes;
    unsigned links, user, group;
    unsigned short mode, unused;
    unsigned long inode, size, blocks, known_attributes;
    struct moment access, birth, change, modification;
    unsigned long more[16];
};

file *fopen(const char *path, const char *mode);
long getline(char **line, unsigned long *room, file *from);
int snprintf(char *to, unsigned long room, const char *form, ...);
int statx(int folder, const char *path, int flags, unsigned wanted, struct facts *found);
char *strchr(const char *text, int byte);
int strcmp(const char *one, const char *other);
char *strcpy(char *to, const char *from);

enum { CURRENT_FOLDER = -100, SIZE_TIMES_AND_INODE = 0x3c0, HEAD = 3 };

static void tell_state(const char *path, char *state, unsigned long room) {
    struct facts it;
    if (statx(CURRENT_FOLDER, path, 0, SIZE_TIMES_AND_INODE, &it))
        strcpy(state, "-");
    else
        snprintf(state, room, "%lu:%ld.%09u:%ld.%09u:%lu", it.size, it.modification.seconds, it.modification.nanoseconds, it.change.seconds,
                 it.change.nanoseconds, it.inode);
}

int main(int count, char **words) {
    char *line = 0, state[128];
    unsigned long room = 0;
    int is_listed = 0;
    file *list = count == 3 ? fopen(words[1], "r") : 0;
    if (!list)
        return 1;
    for (long number = 0, length; (length = getline(&line, &room, list)) > 0; number++) {
        if (number < HEAD)
            continue;
        line[length - 1] = 0;
        char *was = strchr(line, ' '), *path = was ? strchr(was + 1, ' ') : 0;
        if (!path)
            return 1;
        *path++ = 0;
        tell_state(path, state, sizeof state);
        if (strcmp(was + 1, state))
            return 1;
        is_listed |= !strcmp(path, words[2]);
    }
    return !is_listed;
}
