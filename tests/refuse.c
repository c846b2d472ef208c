// Refuses one allocation or one thread of the program that it is loaded into, and says so on standard error; when the program ends,
// it says how many allocations there were. The variable REFUSE holds the number of the allocation, counted from 1, of whatever
// thread it is; the variable REFUSE_THREAD that of the thread.

typedef unsigned long size;

extern void *__libc_malloc(size bytes);
extern void *__libc_realloc(void *block, size bytes);
extern void *dlsym(void *library, const char *name);
extern char *getenv(const char *name);
extern long write(int file, const void *text, size bytes);

typedef int creates(void *thread, const void *how, void *(*run)(void *), void *with);

static const char said[] = "allocation refused\n";
static const char said_of_thread[] = "thread refused\n";

static long asked;
static long threads;

static long number_of(const char *digits) {
    long number = 0;
    for (; digits && *digits; digits++)
        number = 10 * number + (*digits - '0');
    return number;
}

static int is_refused(void) {
    if (__atomic_add_fetch(&asked, 1, __ATOMIC_RELAXED) != number_of(getenv("REFUSE")))
        return 0;
    write(2, said, sizeof said - 1);
    return 1;
}

void *malloc(size bytes) { return is_refused() ? 0 : __libc_malloc(bytes); }

void *realloc(void *block, size bytes) { return is_refused() ? 0 : __libc_realloc(block, bytes); }

// The library's own is the next of that name; the number is that of Linux for "try again".
int pthread_create(void *thread, const void *how, void *(*run)(void *), void *with) {
    if (__atomic_add_fetch(&threads, 1, __ATOMIC_RELAXED) == number_of(getenv("REFUSE_THREAD"))) {
        write(2, said_of_thread, sizeof said_of_thread - 1);
        return 11;
    }
    creates *create = (creates *)dlsym((void *)-1, "pthread_create");
    return create(thread, how, run, with);
}

// The last line that it says: "allocations", and how many.
__attribute__((destructor)) static void tell(void) {
    char text[] = "allocations                     \n";
    char *digit = text + sizeof text - 3;
    long left = asked;
    do
        *digit-- = (char)('0' + left % 10);
    while ((left /= 10) > 0);
    write(2, text, sizeof text - 1);
}
