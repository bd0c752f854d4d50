/* Reads of TEMP by threads over libca: client_threads CALLERS READS WINDOW prints the microseconds that so many reads by each caller took, from
 * when the channel was connected, with so many outstanding at each.
 *
 * One caller reads by ca_array_get and ca_pend_io. Several share a context, and each has a group of its own, by ca_sg_array_get and ca_sg_block,
 * since ca_pend_io waits for the reads of all threads. What libca exports is declared here: Debian's package of it has no headers. */
#include <pthread.h>
#include <stdio.h>
#include <stdlib.h>
#include <sys/time.h>

typedef struct oldChannelNotify *chid;
struct ca_client_context;
extern int ca_context_create(int preemptive);
extern struct ca_client_context *ca_current_context(void);
extern int ca_attach_context(struct ca_client_context *context);
extern void ca_context_destroy(void);
extern int ca_create_channel(const char *name, void *heard, void *own, unsigned priority, chid *channel);
extern int ca_array_get(long type, unsigned long count, chid channel, void *value);
extern int ca_pend_io(double seconds);
extern int ca_sg_create(unsigned *group);
extern int ca_sg_delete(unsigned group);
extern int ca_sg_array_get(unsigned group, long type, unsigned long count, chid channel, void *value);
extern int ca_sg_block(unsigned group, double seconds);

static const long DBR_LONG = 5;

static struct ca_client_context *context;
static chid channel;
static long each, window;

/* An odd status is a success. */
static void check(int status, const char *what)
{
    if (!(status & 1)) {
        fprintf(stderr, "%s: status %d\n", what, status);
        exit(1);
    }
}

static void read_alone(void)
{
    int *values = malloc(window * sizeof *values);
    for (long done = 0; done < each;) {
        long count = each - done < window ? each - done : window;
        for (long i = 0; i < count; i++)
            check(ca_array_get(DBR_LONG, 1, channel, &values[i]), "get");
        check(ca_pend_io(60.0), "pend");
        done += count;
    }
    free(values);
}

static void *read_in_group(void *unused)
{
    int *values = malloc(window * sizeof *values);
    unsigned group;
    (void)unused;
    check(ca_attach_context(context), "attach");
    check(ca_sg_create(&group), "group");
    for (long done = 0; done < each;) {
        long count = each - done < window ? each - done : window;
        for (long i = 0; i < count; i++)
            check(ca_sg_array_get(group, DBR_LONG, 1, channel, &values[i]), "get");
        check(ca_sg_block(group, 60.0), "block");
        done += count;
    }
    ca_sg_delete(group);
    free(values);
    return NULL;
}

int main(int argc, char **argv)
{
    struct timeval from, to;
    pthread_t threads[64];
    int callers = argc == 4 ? atoi(argv[1]) : 0;
    if (callers < 1 || callers > 64)
        return 2;
    each = atol(argv[2]);
    window = atol(argv[3]);
    check(ca_context_create(callers > 1), "context");
    context = ca_current_context();
    check(ca_create_channel("TEMP", NULL, NULL, 0, &channel), "channel");
    check(ca_pend_io(10.0), "connect");
    gettimeofday(&from, NULL);
    if (callers == 1)
        read_alone();
    else {
        for (int i = 0; i < callers; i++)
            pthread_create(&threads[i], NULL, read_in_group, NULL);
        for (int i = 0; i < callers; i++)
            pthread_join(threads[i], NULL);
    }
    gettimeofday(&to, NULL);
    printf("%ld\n", (to.tv_sec - from.tv_sec) * 1000000L + to.tv_usec - from.tv_usec);
    ca_context_destroy();
    return 0;
}
