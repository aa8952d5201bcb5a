// The heap of a program, in place of the kit's. It refuses the growth whose number REFUSED_GROWTH has, counted from 1 from
// the program's start, and grants all others. A growth is a first room or a larger one. As the program ends it says on
// standard error how many growths were asked for.
extern void *malloc(unsigned long bytes);
extern void *realloc(void *room, unsigned long bytes);
extern void free(void *room);
extern char *getenv(const char *name);
extern long strtol(const char *text, char **end, int base);
extern int dprintf(int file, const char *format, ...);

struct answer {
    unsigned long is_granted;
    void *room;
};

static long asked = 0;
static long refused = 0;
static char nothing[16];

__attribute__((constructor)) static void begin(void) {
    const char *text = getenv("REFUSED_GROWTH");
    refused = text ? strtol(text, 0, 10) : 0;
}

__attribute__((destructor)) static void end(void) {
    dprintf(2, "growths: %ld\n", asked);
}

static int is_refused(void) {
    asked += 1;
    return asked == refused;
}

static struct answer answer_of(void *room) {
    struct answer answer = {room != 0, room ? room : nothing};
    return answer;
}

struct answer rattle_alloc(unsigned long bytes, unsigned long align) {
    return answer_of(is_refused() ? 0 : malloc(bytes ? bytes : align));
}

struct answer rattle_realloc(void *room, unsigned long kept, unsigned long bytes, unsigned long align) {
    return answer_of(is_refused() ? 0 : realloc(room, bytes ? bytes : align));
}

void rattle_dealloc(void *room) {
    free(room);
}
